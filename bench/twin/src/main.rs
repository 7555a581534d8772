//! The plain program that the proved one is timed against.
//!
//! It settles the same scripts by the same steps over the same data: read all of standard input, copy each
//! command's name and body, do the commands in rounds, read each body into a tree and label its nodes, join
//! the lists of a query's two names, sort the pairs by ancestor, append a witness tree for each to the part
//! of its session, and write the parts and the history at the end. With the word `walk` it finds the matches
//! by walking the tree and labels nothing. With `times` it tells on standard error how long each step took,
//! in nanoseconds. It takes scripts without a fault alone. `bench/run` compares the outputs byte for byte.

use std::collections::BTreeMap;
use std::env;
use std::fs::File;
use std::io::{self, Write};
use std::os::fd::AsFd;
use std::process::ExitCode;
use std::rc::Rc;
use std::time::Instant;
use twin::join::{Axis, join_desc};
use twin::reader::read_tree;
use twin::rounds::{Marked, Step, rounds};
use twin::store::{Item, Store};
use twin::{Node, read_up_to_most};

enum Command {
    Load { name: Vec<u8>, lines: Vec<u8> },
    Query { text: Vec<u8> },
    Tell { mark: Vec<u8> },
    Hear { mark: Vec<u8> },
}

/// What a query names.
struct Query<'a> {
    document: &'a [u8],
    first: &'a [u8],
    second: &'a [u8],
}

/// The numbers of two matched nodes, in document order from 1. No line shows them, but the proved
/// program collects them, so the twin does too.
#[allow(dead_code)]
struct Match {
    first: u32,
    second: u32,
}

/// A document with labels, or without where it is walked.
enum Document {
    Labelled(Store),
    Plain(Node),
}

/// Tells how long each step took, where it is asked to.
struct Clock {
    told: bool,
    last: Instant,
}

impl Clock {
    fn tell(&mut self, step: &str) {
        if self.told {
            eprintln!("{step} {}", self.last.elapsed().as_nanos());
        }
        self.last = Instant::now();
    }
}

/// What the commands that are done leave.
struct Running<'a> {
    walk: bool,
    clock: Clock,
    history: Vec<(usize, u32, &'a [u8], Rc<Document>)>,
    latest: BTreeMap<&'a [u8], Rc<Document>>,
    counts: Vec<u32>,
    seen: Vec<usize>,
    told: BTreeMap<&'a [u8], usize>,
    parts: Vec<Vec<u8>>,
}

fn main() -> io::Result<ExitCode> {
    let word = env::args().nth(1).unwrap_or_default();
    let mut clock = Clock { told: word == "times", last: Instant::now() };
    let bytes = read_up_to_most(&mut io::stdin().lock())?;
    clock.tell("input");
    let sessions = sessions_of(&bytes);
    drop(bytes);
    clock.tell("script");
    let mut running = Running {
        walk: word == "walk",
        clock,
        history: Vec::new(),
        latest: BTreeMap::new(),
        counts: vec![0; sessions.len()],
        seen: vec![0; sessions.len()],
        told: BTreeMap::new(),
        parts: (1..=sessions.len()).map(|n| format!("session {n}\n").into_bytes()).collect(),
    };
    for (session, place) in order_of(&sessions) {
        let (session, place) = (session as usize, place as usize);
        running.act(session, place, &sessions[session][place]);
    }
    // `Stdout` buffers by lines and searches each piece for its last line end. All bytes are here
    // already, so they go to the file itself.
    let mut out = File::from(io::stdout().as_fd().try_clone_to_owned()?);
    for part in &mut running.parts {
        part.extend_from_slice(b"end\n");
        out.write_all(part)?;
    }
    out.write_all(&history_text(&running))?;
    running.clock.tell("output");
    Ok(ExitCode::SUCCESS)
}

/// The sessions with their commands.
fn sessions_of(bytes: &[u8]) -> Vec<Vec<Command>> {
    let mut sessions: Vec<Vec<Command>> = Vec::new();
    let mut rest = bytes;
    while !rest.is_empty() {
        let line = next(&mut rest);
        if line == b"session" {
            sessions.push(Vec::new());
            continue;
        }
        let command = if let Some(name) = line.strip_prefix(b"load ") {
            Command::Load { name: name.to_vec(), lines: body(&mut rest).to_vec() }
        } else if line == b"query" {
            Command::Query { text: body(&mut rest).to_vec() }
        } else if let Some(mark) = line.strip_prefix(b"tell ") {
            Command::Tell { mark: mark.to_vec() }
        } else if let Some(mark) = line.strip_prefix(b"hear ") {
            Command::Hear { mark: mark.to_vec() }
        } else {
            continue;
        };
        sessions.last_mut().expect("a session").push(command);
    }
    sessions
}

/// The next line, without its end.
fn next<'a>(rest: &mut &'a [u8]) -> &'a [u8] {
    let end = rest.iter().position(|byte| *byte == b'\n').unwrap_or(rest.len());
    let line = &rest[..end];
    *rest = &rest[(end + 1).min(rest.len())..];
    line
}

/// The lines up to one that is `.` alone.
fn body<'a>(rest: &mut &'a [u8]) -> &'a [u8] {
    let whole = *rest;
    loop {
        let before = whole.len() - rest.len();
        if next(rest) == b"." {
            return &whole[..before];
        }
    }
}

/// The order of the commands.
fn order_of(sessions: &[Vec<Command>]) -> Vec<Step> {
    let mut numbers = BTreeMap::new();
    for command in sessions.iter().flatten() {
        if let Command::Tell { mark } = command {
            numbers.insert(mark.as_slice(), numbers.len());
        }
    }
    rounds(sessions, numbers.len(), |command| match command {
        Command::Tell { mark } => Marked::Tells(numbers[mark.as_slice()]),
        Command::Hear { mark } => Marked::Hears(numbers[mark.as_slice()]),
        _ => Marked::Neither,
    })
}

impl<'a> Running<'a> {
    fn act(&mut self, session: usize, place: usize, command: &'a Command) {
        let number = place + 1;
        match command {
            Command::Load { name, lines } => self.load(session, number, name, lines),
            Command::Query { text } => self.query(session, number, text),
            Command::Tell { mark } => {
                self.told.insert(mark, self.seen[session]);
                self.line(session, number, "tell", mark);
            }
            Command::Hear { mark } => {
                self.seen[session] = self.seen[session].max(self.told[mark.as_slice()]);
                self.line(session, number, "hear", mark);
            }
        }
    }

    fn line(&mut self, session: usize, number: usize, verb: &str, mark: &[u8]) {
        let part = &mut self.parts[session];
        part.extend_from_slice(format!("{number} {verb} ").as_bytes());
        part.extend_from_slice(mark);
        part.extend_from_slice(format!(" front {}\n", self.seen[session]).as_bytes());
    }

    fn load(&mut self, session: usize, number: usize, name: &'a [u8], lines: &[u8]) {
        let root = read_tree(lines).expect("a document");
        self.clock.tell("tree");
        let document = if self.walk { Document::Plain(root) } else { Document::Labelled(Store::build(root)) };
        let document = Rc::new(document);
        self.clock.tell("labels");
        self.counts[session] += 1;
        self.latest.insert(name, Rc::clone(&document));
        self.history.push((session, self.counts[session], name, document));
        self.seen[session] = self.history.len();
        let part = &mut self.parts[session];
        part.extend_from_slice(format!("{number} load ").as_bytes());
        part.extend_from_slice(name);
        part.extend_from_slice(format!(" at {}\n", self.history.len()).as_bytes());
    }

    fn query(&mut self, session: usize, number: usize, text: &[u8]) {
        let query = query_of(text).expect("a query of two names");
        let front = self.history.len();
        self.seen[session] = front;
        let mut matches = Vec::new();
        match self.latest.get(query.document).map(Rc::as_ref) {
            Some(Document::Labelled(store)) => matches = joined(store, &query, &mut self.clock),
            Some(Document::Plain(root)) => drop(push_matches(root, 1, &query, &mut matches)),
            None => {}
        }
        let part = &mut self.parts[session];
        let trees = matches.len();
        part.extend_from_slice(format!("{number} query front {front} trees {trees}\n").as_bytes());
        let opened = [b"(witness\n(".as_slice(), query.first, b"\n(", query.second, b"\n"].concat();
        let closed = [b")".as_slice(), query.second, b"\n)", query.first, b"\n)witness\n"].concat();
        let witness = [opened, closed].concat();
        for _ in &matches {
            part.extend_from_slice(&witness);
        }
        part.extend_from_slice(b".\n");
        self.clock.tell("lines");
    }
}

fn history_text(running: &Running) -> Vec<u8> {
    let mut out = format!("history {}\n", running.history.len()).into_bytes();
    for (at, (session, count, name, _)) in running.history.iter().enumerate() {
        let head = format!("{} session {} change {count} load ", at + 1, session + 1);
        out.extend_from_slice(&[head.as_bytes(), name, b"\n"].concat());
    }
    out.extend_from_slice(b"ok\n");
    out
}

/// The matches by two joins: the document with the first name, and that with the second.
fn joined(store: &Store, query: &Query, clock: &mut Clock) -> Vec<Match> {
    let list = store.named(query.first);
    let below = join_desc(store.document_item(), list, Axis::Descendant);
    let firsts: Vec<Item> = below.iter().map(|pair| list[pair.d as usize]).collect();
    let seconds = store.named(query.second);
    let mut pairs = join_desc(&firsts, seconds, Axis::Descendant);
    clock.tell("joins");
    if !pairs.is_sorted_by_key(|pair| pair.a) {
        pairs.sort_by_key(|pair| pair.a);
    }
    clock.tell("sort");
    pairs
        .iter()
        .map(|pair| Match {
            first: firsts[pair.a as usize].node,
            second: seconds[pair.d as usize].node,
        })
        .collect()
}

/// The names in a query line.
fn query_of(text: &[u8]) -> Option<Query<'_>> {
    let line = text.strip_suffix(b"\n")?;
    let (document, rest) = label_at(line.strip_prefix(b"MATCH document(\"")?)?;
    let (first, rest) = name_at(rest.strip_prefix(b"\") (//- ")?)?;
    let (second, rest) = name_at(rest.strip_prefix(b" (//- ")?)?;
    (rest == b"))" && line.len() <= 65_535).then_some(Query { document, first, second })
}

/// The name of a document at the front, and what follows.
fn label_at(text: &[u8]) -> Option<(&[u8], &[u8])> {
    let goes_on = |byte: &u8| byte.is_ascii_alphanumeric() || b"_.-".contains(byte);
    let len = text.iter().take_while(|byte| goes_on(byte)).count();
    (1..=64).contains(&len).then(|| text.split_at(len))
}

/// The name of an element in a query at the front, and what follows.
fn name_at(text: &[u8]) -> Option<(&[u8], &[u8])> {
    let goes_on = |at: usize| match text[at] {
        b'0'..=b'9' | b'-' | b'.' => true,
        b':' => begins_name(&text[at + 1..]),
        _ => begins_name(&text[at..]),
    };
    let len = (0..text.len()).take_while(|at| goes_on(*at)).count();
    begins_name(text).then(|| text.split_at(len))
}

fn begins_name(text: &[u8]) -> bool {
    text.first().is_some_and(|byte| byte.is_ascii_alphabetic() || *byte == b'_' || *byte >= 128)
}

/// Collects the matches whose first node is this one, which has that number, or stands below it.
/// Answers the number of the node that follows them.
fn push_matches(node: &Node, number: u32, query: &Query, out: &mut Vec<Match>) -> u32 {
    let mut next = number + 1;
    if let Node::Elem { name, kids } = node {
        if name == query.first {
            pair(kids, number, query.second, next, out);
        }
        for kid in kids {
            next = push_matches(kid, next, query, out);
        }
    }
    next
}

/// Collects the node numbered `first` with each element named `second` among the kids and below
/// them. The first kid has the number `next`; answers that of the node that follows them.
fn pair(kids: &[Node], first: u32, second: &[u8], mut next: u32, out: &mut Vec<Match>) -> u32 {
    for kid in kids {
        let number = next;
        next += 1;
        if let Node::Elem { name, kids } = kid {
            if name == second {
                out.push(Match { first, second: number });
            }
            next = pair(kids, first, second, next, out);
        }
    }
    next
}

