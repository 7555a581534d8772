//! The joins as the proved program takes their steps: by descendant, and by ancestor from reaches.

use crate::Pair;
use limit::patterns::Axis;
use limit::store::Item;

/// So many reaches wait to be written together, at least.
const WAITING: usize = 64;

/// An ancestor, and its descendants: from place `first` of `d` up to `last`.
struct Reach {
    a: u32,
    first: u32,
    last: u32,
}

pub fn join_desc(a: &[Item], d: &[Item], axis: Axis) -> Vec<Pair> {
    let (mut stack, mut next, mut pairs) = (Vec::new(), 0, Vec::new());
    for (place, label) in (0..).zip(d) {
        next = push_started(a, next, label, &mut stack);
        pop_ended(a, &mut stack, label);
        match axis {
            Axis::Descendant => {
                for ancestor in &stack {
                    pairs.push(Pair { a: *ancestor, d: place });
                }
            }
            Axis::Child => {
                if let Some(top) = stack.last() {
                    if a[*top as usize].level + 1 == label.level {
                        pairs.push(Pair { a: *top, d: place });
                    }
                }
            }
        }
    }
    pairs
}

fn pop_ended(a: &[Item], stack: &mut Vec<u32>, label: &Item) {
    while let Some(top) = stack.last() {
        if a[*top as usize].end >= label.start {
            return;
        }
        stack.pop();
    }
}

fn push_started(a: &[Item], first: u32, label: &Item, stack: &mut Vec<u32>) -> u32 {
    let mut next = first;
    while (next as usize) < a.len() {
        let ancestor = &a[next as usize];
        if ancestor.start >= label.start {
            return next;
        }
        pop_ended(a, stack, ancestor);
        stack.push(next);
        next += 1;
    }
    next
}

pub fn join_anc(a: &[Item], d: &[Item], axis: Axis) -> Vec<Pair> {
    match axis {
        Axis::Descendant => by_reach(a, d),
        Axis::Child => by_parent(a, d),
    }
}

fn by_parent(a: &[Item], d: &[Item]) -> Vec<Pair> {
    let mut pairs = join_desc(a, d, Axis::Child);
    if !pairs.is_sorted_by_key(|pair| pair.a) {
        pairs.sort_by_key(|pair| pair.a);
    }
    pairs
}

fn by_reach(a: &[Item], d: &[Item]) -> Vec<Pair> {
    let (mut pairs, mut reaches, mut stack, mut next) = (Vec::new(), Vec::new(), Vec::new(), 0);
    for (place, label) in (0..).zip(d) {
        next = open_started(a, next, label, place, d.len() as u32, &mut reaches, &mut stack, &mut pairs);
        end_reaches(a, label, place, &mut reaches, &mut stack);
    }
    write_reaches(&mut reaches, &mut pairs);
    pairs
}

fn end_reaches(a: &[Item], label: &Item, place: u32, reaches: &mut Vec<Reach>, stack: &mut Vec<u32>) {
    while let Some(top) = stack.last() {
        let top = *top as usize;
        if a[reaches[top].a as usize].end >= label.start {
            return;
        }
        if reaches[top].first == place && top + 1 == reaches.len() {
            reaches.pop();
        } else {
            reaches[top].last = place;
        }
        stack.pop();
    }
}

#[allow(clippy::too_many_arguments)]
fn open_started(
    a: &[Item],
    first: u32,
    label: &Item,
    place: u32,
    hi: u32,
    reaches: &mut Vec<Reach>,
    stack: &mut Vec<u32>,
    pairs: &mut Vec<Pair>,
) -> u32 {
    let mut next = first;
    while (next as usize) < a.len() {
        let ancestor = &a[next as usize];
        if ancestor.start >= label.start {
            return next;
        }
        end_reaches(a, ancestor, place, reaches, stack);
        if stack.is_empty() && reaches.len() >= WAITING {
            write_reaches(reaches, pairs);
        }
        stack.push(reaches.len() as u32);
        reaches.push(Reach { a: next, first: place, last: hi });
        next += 1;
    }
    next
}

fn write_reaches(reaches: &mut Vec<Reach>, pairs: &mut Vec<Pair>) {
    pairs.reserve(reaches.iter().map(|reach| (reach.last - reach.first) as usize).sum());
    for reach in reaches.iter() {
        for place in reach.first..reach.last {
            pairs.push(Pair { a: reach.a, d: place });
        }
    }
    reaches.clear();
}
