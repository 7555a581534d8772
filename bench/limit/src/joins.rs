//! One structural join for each edge of a pattern, by ancestor, and what it leaves of the lists.

use crate::patterns::{Axis, Edge, Mark};
use crate::store::{Item, Store};

/// The numbers of two nodes that an edge joins.
#[derive(Clone, Copy)]
pub struct Link {
    pub above: u32,
    pub below: u32,
}

/// The links of each edge, and how many pairs the joins had.
pub struct Joined {
    pub links: Vec<Vec<Link>>,
    pub pairs: usize,
    pub read: usize,
}

/// The joins in this order of the edges, each over what those before it left where `narrows` says so, and at
/// the end without the links that lead nowhere.
pub fn join_edges(store: &Store, edges: &[Edge], order: &[usize], narrows: bool) -> Joined {
    let mut lists: Vec<Vec<Item>> = vec![vec![document_item(store)]];
    lists.extend(edges.iter().map(|edge| first_list(store, edge)));
    let mut joined = Joined { links: edges.iter().map(|_| Vec::new()).collect(), pairs: 0, read: 0 };
    for &e in order {
        let edge = &edges[e];
        let (a, d) = (&lists[edge.up], &lists[e + 1]);
        joined.read += a.len() + d.len();
        let pairs = join_anc(a, d, edge.axis);
        joined.pairs += pairs.len();
        joined.links[e] = links_of(a, d, &pairs);
        if narrows {
            let below = kept(d, pairs.iter().map(|pair| pair.1));
            let above = asks(edge.mark).then(|| kept(a, pairs.iter().map(|pair| pair.0)));
            lists[e + 1] = below;
            if let Some(above) = above {
                lists[edge.up] = above;
            }
        }
    }
    trim(edges, &mut joined.links);
    joined
}

pub fn asks(mark: Mark) -> bool {
    matches!(mark, Mark::One | Mark::Some)
}

fn document_item(store: &Store) -> Item {
    let count = store.document.extents.len() as u32;
    Item { start: 1, end: 2 * count + 2, level: 0, node: 0 }
}

/// The elements of the name whose text is a number not below the least.
fn first_list(store: &Store, edge: &Edge) -> Vec<Item> {
    let list = store.named(edge.name);
    match edge.least {
        None => list.to_vec(),
        Some(least) => list.iter().filter(|item| value_of(store, item.node).is_some_and(|value| value >= least)).copied().collect(),
    }
}

/// The number of an element with one text alone.
fn value_of(store: &Store, number: u32) -> Option<i64> {
    let text = store.document.extents.get(number as usize)?;
    let line = &store.document.text[text.from as usize + 1..text.to as usize - 1];
    std::str::from_utf8(line).ok()?.parse().ok()
}

/// Pairs of places, by ancestor and then by descendant.
fn join_anc(a: &[Item], d: &[Item], axis: Axis) -> Vec<(u32, u32)> {
    match axis {
        Axis::Descendant => join_runs(a, d),
        Axis::Child => join_kids(a, d),
    }
}

/// The descendants of an ancestor stand behind each other.
fn join_runs(a: &[Item], d: &[Item]) -> Vec<(u32, u32)> {
    let mut pairs = Vec::new();
    let mut first = 0;
    for (i, above) in a.iter().enumerate() {
        while first < d.len() && d[first].start <= above.start {
            first += 1;
        }
        for (j, below) in d.iter().enumerate().skip(first) {
            if below.start > above.end {
                break;
            }
            pairs.push((i as u32, j as u32));
        }
    }
    pairs
}

/// By a stack, and sorted where parents lie inside each other.
fn join_kids(a: &[Item], d: &[Item]) -> Vec<(u32, u32)> {
    let (mut pairs, mut stack): (Vec<(u32, u32)>, Vec<usize>) = (Vec::new(), Vec::new());
    let mut next = 0;
    for (j, below) in d.iter().enumerate() {
        while next < a.len() && a[next].start < below.start {
            while stack.last().is_some_and(|&top| a[top].end < a[next].start) {
                stack.pop();
            }
            stack.push(next);
            next += 1;
        }
        while stack.last().is_some_and(|&top| a[top].end < below.start) {
            stack.pop();
        }
        if let Some(&top) = stack.last() {
            if a[top].level + 1 == below.level {
                pairs.push((top as u32, j as u32));
            }
        }
    }
    if pairs.windows(2).any(|two| two[0].0 > two[1].0) {
        pairs.sort_by_key(|pair| pair.0);
    }
    pairs
}

fn links_of(a: &[Item], d: &[Item], pairs: &[(u32, u32)]) -> Vec<Link> {
    pairs.iter().map(|&(i, j)| Link { above: a[i as usize].node, below: d[j as usize].node }).collect()
}

fn kept(items: &[Item], places: impl Iterator<Item = u32>) -> Vec<Item> {
    let mut hits = vec![false; items.len()];
    places.for_each(|place| hits[place as usize] = true);
    items.iter().zip(hits).filter(|(_, hit)| *hit).map(|(item, _)| *item).collect()
}

/// From the last edge to the first, drops the links to nodes that have no link where one is asked for.
fn trim(edges: &[Edge], links: &mut [Vec<Link>]) {
    for f in (0..edges.len()).rev() {
        let edge = &edges[f];
        if !asks(edge.mark) || edge.up == 0 {
            continue;
        }
        let (above, below) = links.split_at_mut(f);
        above[edge.up - 1].retain(|link| !run_of(&below[0], link.below).is_empty());
    }
}

/// The links that lead from a node.
pub fn run_of(links: &[Link], node: u32) -> &[Link] {
    let rest = &links[start_of(links, node)..];
    let end = rest.iter().take_while(|link| link.above == node).count();
    &rest[..end]
}

/// Where those begin that lead from a node or a later one.
pub fn start_of(links: &[Link], node: u32) -> usize {
    links.partition_point(|link| link.above < node)
}
