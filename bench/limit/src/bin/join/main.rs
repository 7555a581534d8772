//! Joins two lists of elements of the document on standard input, as the proved `tb_bench join` does: the words are
//! the names of both, an axis (`child` or `descendant`) and an order (`desc` or `anc`, or `published` for the lists
//! of pairs of the published join by ancestor). What was found goes to standard output, and the nanoseconds of the
//! join to standard error.

mod published;
mod reach;

use limit::patterns::Axis;
use limit::reader::read_tree;
use limit::store::Store;
use std::io::{self, Read};
use std::mem::forget;
use std::process::ExitCode;
use std::time::Instant;

/// The places of an ancestor and of a descendant in their lists.
#[derive(Clone, Copy)]
pub struct Pair {
    pub a: u32,
    pub d: u32,
}

/// A number that differs where the pairs do, most likely.
fn pairs_sum(pairs: &[Pair]) -> u64 {
    pairs.iter().fold(1, |sum: u64, pair| {
        sum.wrapping_mul(31).wrapping_add(u64::from(pair.a)).wrapping_mul(31).wrapping_add(u64::from(pair.d))
    })
}

fn main() -> io::Result<ExitCode> {
    let words: Vec<String> = std::env::args().skip(1).collect();
    let [above, below, axis, order] = words.as_slice() else { return Ok(ExitCode::FAILURE) };
    let mut lines = Vec::new();
    io::stdin().lock().read_to_end(&mut lines)?;
    let Ok(document) = read_tree(&lines) else { return Ok(ExitCode::FAILURE) };
    drop(lines);
    let store = Store::build(document);
    let (a, d) = (store.named(above.as_bytes()), store.named(below.as_bytes()));
    let axis = if axis == "child" { Axis::Child } else { Axis::Descendant };
    eprintln!("ready 0");
    let start = Instant::now();
    let pairs = match order.as_str() {
        "anc" => reach::join_anc(a, d, axis),
        "published" => published::join_anc(a, d, axis),
        _ => reach::join_desc(a, d, axis),
    };
    let took = start.elapsed();
    println!("join {}", pairs.len());
    println!("join-sum {}", pairs_sum(&pairs));
    eprintln!("join {}", took.as_nanos());
    forget(store);
    Ok(ExitCode::SUCCESS)
}
