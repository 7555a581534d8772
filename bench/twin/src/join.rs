//! Stack-Tree-Desc (Al-Khalifa and others, ICDE 2002), as the proved program takes its steps.

use crate::store::{Item, Label};

#[derive(Clone, Copy, PartialEq)]
pub enum Axis {
    Child,
    Descendant,
}

/// The places of an ancestor and of a descendant in their lists.
pub struct Pair {
    pub a: u32,
    pub d: u32,
}

/// The pairs of `d` with their ancestors in `a`, by descendant and then by ancestor.
pub fn join_desc(a: &[Item], d: &[Item], axis: Axis) -> Vec<Pair> {
    let mut stack = Vec::new();
    let mut next = 0;
    let mut pairs = Vec::new();
    for place in 0..d.len() as u32 {
        let label = &d[place as usize].label;
        next = push_started(a, next, label, &mut stack);
        pop_ended(a, &mut stack, label);
        pair_all(a, &stack, label, place, axis, &mut pairs);
    }
    pairs
}

fn pop_ended(a: &[Item], stack: &mut Vec<u32>, label: &Label) {
    while let Some(top) = stack.last() {
        if a[*top as usize].label.end >= label.start {
            return;
        }
        stack.pop();
    }
}

fn push_started(a: &[Item], first: u32, label: &Label, stack: &mut Vec<u32>) -> u32 {
    let mut next = first;
    while (next as usize) < a.len() {
        let ancestor = &a[next as usize].label;
        if ancestor.start >= label.start {
            return next;
        }
        pop_ended(a, stack, ancestor);
        stack.push(next);
        next += 1;
    }
    next
}

fn pair_all(a: &[Item], stack: &[u32], label: &Label, place: u32, axis: Axis, pairs: &mut Vec<Pair>) {
    match axis {
        Axis::Descendant => pairs.extend(stack.iter().map(|ancestor| Pair { a: *ancestor, d: place })),
        Axis::Child => {
            if let Some(top) = stack.last() {
                if a[*top as usize].label.level + 1 == label.level {
                    pairs.push(Pair { a: *top, d: place });
                }
            }
        }
    }
}
