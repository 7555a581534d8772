//! The limit of the design: the proved program's layout of documents in plain Rust.
//!
//! It settles scripts of sessions that load documents, each without a fault, and prints what `timber single`
//! prints of them, so `bench/load` compares the outputs byte for byte. All tests for faults are there.

use limit::lines::{cut_body, next_line};
use limit::reader;
use limit::store::Store;
use std::fs::File;
use std::hint::black_box;
use std::io::{self, Read, Write};
use std::mem::forget;
use std::os::fd::AsFd;
use std::process::ExitCode;

struct Load {
    name: Vec<u8>,
    lines: Vec<u8>,
}

fn main() -> io::Result<ExitCode> {
    let mut bytes = Vec::new();
    io::stdin().lock().read_to_end(&mut bytes)?;
    let sessions = sessions_of(&bytes);
    drop(bytes);
    let mut parts: Vec<Vec<u8>> = (1..=sessions.len()).map(|n| format!("session {n}\n").into_bytes()).collect();
    let mut queues: Vec<_> = sessions.into_iter().map(|session| session.into_iter().enumerate()).collect();
    let mut history = Vec::new();
    let mut stores = Vec::new();
    loop {
        let before = history.len();
        for (session, queue) in queues.iter_mut().enumerate() {
            let Some((at, Load { name, lines })) = queue.next() else { continue };
            let read = reader::read_tree(&lines);
            drop(lines);
            let Ok(document) = read else { return Ok(ExitCode::FAILURE) };
            stores.push(Store::build(document));
            history.push((session + 1, at + 1, name.clone()));
            let line = [format!("{} load ", at + 1).as_bytes(), &name, format!(" at {}\n", history.len()).as_bytes()].concat();
            parts[session].extend_from_slice(&line);
        }
        if history.len() == before {
            break;
        }
    }
    let mut out = File::from(io::stdout().as_fd().try_clone_to_owned()?);
    for part in &mut parts {
        part.extend_from_slice(b"end\n");
        out.write_all(part)?;
    }
    let mut text = format!("history {}\n", history.len()).into_bytes();
    for (at, (session, change, name)) in history.iter().enumerate() {
        let head = format!("{} session {session} change {change} load ", at + 1);
        text.extend_from_slice(&[head.as_bytes(), name, b"\n"].concat());
    }
    text.extend_from_slice(b"ok\n");
    out.write_all(&text)?;
    // Nothing of the stores is read, and yet they are to be made.
    forget(black_box(stores));
    Ok(ExitCode::SUCCESS)
}

/// The loads of each session.
fn sessions_of(bytes: &[u8]) -> Vec<Vec<Load>> {
    let mut sessions: Vec<Vec<Load>> = Vec::new();
    let mut rest = bytes;
    while let Some((line, behind)) = next_line(rest) {
        rest = behind;
        if line == b"session" {
            sessions.push(Vec::new());
        } else if let Some(name) = line.strip_prefix(b"load ") {
            let (body, behind) = cut_body(rest).expect("the end of a body");
            let load = Load { name: name.to_vec(), lines: body.to_vec() };
            sessions.last_mut().expect("a session").push(load);
            rest = behind;
        }
    }
    sessions
}
