//! Matches a pattern over the document on standard input: queries library|empty|sections|deep|vain|beside ORDER
//! [all|text].
//!
//! ORDER are the numbers of the edges, as 0,1,2; with `all` no list is narrowed. What it found goes to standard
//! output, and how long each step took, in nanoseconds, to standard error. With `text` that is the lines of the
//! answer, and one step.

use limit::joins::{asks, join_edges};
use limit::patterns::{Edge, BESIDE, DEEP, EMPTY, LIBRARY, SECTIONS, VAIN};
use limit::reader::read_tree;
use limit::rows::{rows_below, sum_of};
use limit::store::Store;
use limit::text::witness_text;
use std::env;
use std::io::{self, Read, Write};
use std::mem::forget;
use std::time::Instant;

fn main() -> io::Result<()> {
    let words: Vec<String> = env::args().collect();
    let edges = match words[1].as_str() {
        "library" => LIBRARY,
        "empty" => EMPTY,
        "sections" => SECTIONS,
        "deep" => DEEP,
        "beside" => BESIDE,
        _ => VAIN,
    };
    let order: Vec<usize> = words[2].split(',').map(|word| word.parse().expect("a number")).collect();
    let narrows = words.get(3).is_none_or(|word| word != "all");
    let mut lines = Vec::new();
    io::stdin().lock().read_to_end(&mut lines)?;
    let document = read_tree(&lines).expect("a document without a fault");
    drop(lines);
    let store = Store::build(document);
    if words.get(3).is_some_and(|word| word == "text") {
        return time_text(store, edges, &order);
    }
    let start = Instant::now();
    let joined = join_edges(&store, edges, &order, narrows);
    eprintln!("joins {}", start.elapsed().as_nanos());
    let start = Instant::now();
    let is_in_vain = edges.iter().zip(&joined.links).any(|(edge, links)| edge.up == 0 && asks(edge.mark) && links.is_empty());
    let rows = if is_in_vain { Vec::new() } else { rows_below(edges, 0, &joined, 0) };
    eprintln!("rows {}", start.elapsed().as_nanos());
    println!("rows {}\nsum {}", rows.len(), sum_of(&rows));
    eprintln!("read {}\npairs {}", joined.read, joined.pairs);
    forget((store, rows));
    Ok(())
}

/// Times the answer, and prints its lines.
fn time_text(store: Store, edges: &[Edge], order: &[usize]) -> io::Result<()> {
    eprintln!("ready 0");
    let start = Instant::now();
    let joined = join_edges(&store, edges, order, true);
    let (trees, text) = witness_text(&store, edges, &joined.links);
    drop(joined);
    eprintln!("answer {}\ntrees {trees}\nbytes {}", start.elapsed().as_nanos(), text.len());
    io::stdout().lock().write_all(&text)?;
    forget((store, text));
    Ok(())
}
