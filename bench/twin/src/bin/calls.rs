//! Times the engine's calls one by one, as the proved `tb_bench` does: the document of standard input is
//! read and labelled, and its elements `part` are joined with its elements `item`. What was found goes to standard
//! output, and the nanoseconds of each call to standard error.

use std::io;
use std::process::ExitCode;
use std::time::Instant;
use twin::join::{Axis, join_desc};
use twin::reader::read_tree;
use twin::store::Store;
use twin::{MOST_BYTES, Node, read_up_to_most};

fn main() -> io::Result<ExitCode> {
    let lines = read_up_to_most(&mut io::stdin().lock())?;
    if lines.len() > MOST_BYTES {
        eprintln!("no document: more than {MOST_BYTES} bytes");
        return Ok(ExitCode::FAILURE);
    }
    let start = Instant::now();
    let read = read_tree(&lines);
    let took = start.elapsed();
    let root = match read {
        Ok(root) => root,
        Err(fault) => {
            eprintln!("no document: {fault:?}");
            return Ok(ExitCode::FAILURE);
        }
    };
    eprintln!("read {}", took.as_nanos());
    drop(lines);
    let mut text = Vec::new();
    push_texts(&root, &mut text);
    println!("text {}", text.len());
    println!("text-sum {}", sum(&text));
    drop(text);
    let start = Instant::now();
    let store = Store::build(root);
    let took = start.elapsed();
    println!("elements {}", store.elements().len());
    println!("attributes {}", store.attributes().len());
    println!("texts {}", store.texts().len());
    eprintln!("label {}", took.as_nanos());
    println!("part {}", store.named(b"part").len());
    println!("item {}", store.named(b"item").len());
    time_join(&store, "descendant", Axis::Descendant);
    time_join(&store, "child", Axis::Child);
    Ok(ExitCode::SUCCESS)
}

fn time_join(store: &Store, name: &str, axis: Axis) {
    let start = Instant::now();
    let pairs = join_desc(store.named(b"part"), store.named(b"item"), axis);
    let took = start.elapsed();
    println!("{name} {}", pairs.len());
    println!("{name}-sum {}", pairs_sum(&pairs));
    eprintln!("{name} {}", took.as_nanos());
}

/// A number that differs where the pairs do, most likely.
fn pairs_sum(pairs: &[twin::join::Pair]) -> u64 {
    pairs.iter().fold(1, |sum: u64, pair| {
        sum.wrapping_mul(31).wrapping_add(u64::from(pair.a)).wrapping_mul(31).wrapping_add(u64::from(pair.d))
    })
}

/// Appends the text that the node is, or all texts below it.
fn push_texts(node: &Node, texts: &mut Vec<u8>) {
    match node {
        Node::Elem { kids, .. } => kids.iter().for_each(|kid| push_texts(kid, texts)),
        Node::Attr { .. } => {}
        Node::Text { value } => texts.extend_from_slice(value),
    }
}

/// A number that differs where the bytes do, most likely.
fn sum(bytes: &[u8]) -> u64 {
    bytes.iter().fold(1, |sum: u64, byte| sum.wrapping_mul(31).wrapping_add(u64::from(*byte)))
}
