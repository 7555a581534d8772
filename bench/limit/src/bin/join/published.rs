//! Stack-Tree-Anc as published (Al-Khalifa and others, ICDE 2002): an entry of the stack has a list of its own pairs
//! and a list of those that it inherits. All lists are linked in one vector, so that two are joined at once.

use crate::Pair;
use limit::patterns::Axis;
use limit::store::Item;

const NONE: u32 = u32::MAX;

struct Link {
    pair: Pair,
    next: u32,
}

#[derive(Clone, Copy)]
struct List {
    first: u32,
    last: u32,
}

const EMPTY: List = List { first: NONE, last: NONE };

struct Entry {
    place: u32,
    own: List,
    inherited: List,
}

fn joined(links: &mut [Link], front: List, back: List) -> List {
    if front.first == NONE {
        return back;
    }
    if back.first == NONE {
        return front;
    }
    links[front.last as usize].next = back.first;
    List { first: front.first, last: back.last }
}

/// The bottom's own pairs are written at once, all others wait until it is popped.
fn add(links: &mut Vec<Link>, stack: &mut [Entry], at: usize, place: u32, pairs: &mut Vec<Pair>) {
    let pair = Pair { a: stack[at].place, d: place };
    if at == 0 {
        pairs.push(pair);
        return;
    }
    let link = links.len() as u32;
    links.push(Link { pair, next: NONE });
    stack[at].own = joined(links, stack[at].own, List { first: link, last: link });
}

fn pop(links: &mut [Link], stack: &mut Vec<Entry>, pairs: &mut Vec<Pair>) {
    let Some(entry) = stack.pop() else { return };
    let Some(below) = stack.last_mut() else {
        let mut at = entry.inherited.first;
        while at != NONE {
            pairs.push(links[at as usize].pair);
            at = links[at as usize].next;
        }
        return;
    };
    let all = joined(links, entry.own, entry.inherited);
    below.inherited = joined(links, below.inherited, all);
}

pub fn join_anc(a: &[Item], d: &[Item], axis: Axis) -> Vec<Pair> {
    let (mut links, mut stack, mut pairs): (Vec<Link>, Vec<Entry>, Vec<Pair>) = (Vec::new(), Vec::new(), Vec::new());
    let mut next = 0;
    for (place, label) in (0..).zip(d) {
        while next < a.len() && a[next].start < label.start {
            while stack.last().is_some_and(|top| a[top.place as usize].end < a[next].start) {
                pop(&mut links, &mut stack, &mut pairs);
            }
            stack.push(Entry { place: next as u32, own: EMPTY, inherited: EMPTY });
            next += 1;
        }
        while stack.last().is_some_and(|top| a[top.place as usize].end < label.start) {
            pop(&mut links, &mut stack, &mut pairs);
        }
        match axis {
            Axis::Descendant => {
                for at in 0..stack.len() {
                    add(&mut links, &mut stack, at, place, &mut pairs);
                }
            }
            Axis::Child => {
                if stack.last().is_some_and(|top| a[top.place as usize].level + 1 == label.level) {
                    let top = stack.len() - 1;
                    add(&mut links, &mut stack, top, place, &mut pairs);
                }
            }
        }
    }
    while !stack.is_empty() {
        pop(&mut links, &mut stack, &mut pairs);
    }
    pairs
}
