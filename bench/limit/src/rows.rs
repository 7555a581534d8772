//! Witnesses put together from links alone.

use crate::joins::{run_of, Joined};
use crate::patterns::{Edge, Mark};

/// A node, and for each edge of its pattern node what is offered.
pub struct Witness {
    pub node: u32,
    pub offers: Vec<Vec<Witness>>,
}

/// The rows of a node, one offer for each of the edges that leave it: the first varies slowest.
pub fn rows_below(edges: &[Edge], up: usize, joined: &Joined, node: u32) -> Vec<Vec<Vec<Witness>>> {
    let mut rows = vec![Vec::new()];
    for e in (0..edges.len()).filter(|&e| edges[e].up == up) {
        let offers = offered(edges[e].mark, witnesses(edges, e, joined, node));
        rows = product(rows, offers);
    }
    rows
}

fn witnesses(edges: &[Edge], e: usize, joined: &Joined, node: u32) -> Vec<Witness> {
    let mut found = Vec::new();
    for link in run_of(&joined.links[e], node) {
        for offers in rows_below(edges, e + 1, joined, link.below) {
            found.push(Witness { node: link.below, offers });
        }
    }
    found
}

fn offered(mark: Mark, found: Vec<Witness>) -> Vec<Vec<Witness>> {
    match mark {
        Mark::One => found.into_iter().map(|witness| vec![witness]).collect(),
        Mark::Optional if found.is_empty() => vec![Vec::new()],
        Mark::Optional => found.into_iter().map(|witness| vec![witness]).collect(),
        Mark::Some if found.is_empty() => Vec::new(),
        Mark::Some | Mark::Any => vec![found],
    }
}

fn product(mut rows: Vec<Vec<Vec<Witness>>>, mut offers: Vec<Vec<Witness>>) -> Vec<Vec<Vec<Witness>>> {
    match (rows.len(), offers.len()) {
        (_, 0) => Vec::new(),
        (_, 1) => {
            let last = rows.len().saturating_sub(1);
            for row in &mut rows[..last] {
                row.push(offers[0].iter().map(copied).collect());
            }
            if let (Some(row), Some(offer)) = (rows.last_mut(), offers.pop()) {
                row.push(offer);
            }
            rows
        }
        (1, _) => {
            let row = rows.pop().unwrap_or_default();
            offers.into_iter().map(|offer| with(row.iter().map(|offer| offer.iter().map(copied).collect()).collect(), offer)).collect()
        }
        _ => {
            let mut all = Vec::with_capacity(rows.len() * offers.len());
            for row in &rows {
                for offer in &offers {
                    all.push(with(row.iter().map(|offer| offer.iter().map(copied).collect()).collect(), offer.iter().map(copied).collect()));
                }
            }
            all
        }
    }
}

fn with(mut row: Vec<Vec<Witness>>, offer: Vec<Witness>) -> Vec<Vec<Witness>> {
    row.push(offer);
    row
}

fn copied(witness: &Witness) -> Witness {
    Witness { node: witness.node, offers: witness.offers.iter().map(|offer| offer.iter().map(copied).collect()).collect() }
}

/// A number that differs where the witnesses do, most likely.
pub fn sum_of(rows: &[Vec<Vec<Witness>>]) -> u64 {
    let mut sum = 1;
    rows.iter().for_each(|row| add_row(row, &mut sum));
    sum
}

fn add_row(row: &[Vec<Witness>], sum: &mut u64) {
    for offer in row {
        *sum = sum.wrapping_mul(31).wrapping_add(offer.len() as u64);
        for witness in offer {
            *sum = sum.wrapping_mul(31).wrapping_add(u64::from(witness.node));
            add_row(&witness.offers, sum);
        }
    }
}
