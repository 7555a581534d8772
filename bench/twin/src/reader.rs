//! ESIS lines read as the proved program reads them: one pass, the open elements on a stack.

use crate::Node;
use crate::unescaped::push_unescaped;
use std::collections::BTreeSet;
use std::mem::take;

/// Elements that may be open at once.
const MOST_LEVELS: usize = 512;

/// The first fault of lines, with the number of its line, from 1.
#[derive(Clone, Copy, Debug)]
pub enum Fault {
    BadEscape(u32),
    BadName(u32),
    BadAttribute(u32),
    NoElement(u32),
    WrongEnd(u32),
    NotEnded(u32),
    SecondRoot(u32),
    TextOutside(u32),
    TooDeep(u32),
}

/// A line by its first byte, with its parts as they stand.
enum Line<'a> {
    Opens(&'a [u8]),
    Closes(&'a [u8]),
    /// Name, type and value.
    Attribute(&'a [u8], &'a [u8], &'a [u8]),
    Characters(&'a [u8]),
    Conforms,
    PassedOver,
}

/// An open element.
struct Frame {
    name: Vec<u8>,
    kids: Vec<Node>,
}

/// What has been made of the lines so far.
#[derive(Default)]
struct Reader<'a> {
    frames: Vec<Frame>,
    running: Vec<u8>,
    waiting: Vec<Node>,
    names: BTreeSet<&'a [u8]>,
    root: Option<Node>,
}

/// The root of the document that the lines are, or their first fault.
pub fn read_tree(lines: &[u8]) -> Result<Node, Fault> {
    let mut reader = Reader::default();
    let mut rest = lines;
    let mut number = 1;
    while let Some((line, behind)) = next_line(rest) {
        reader.read(line, number)?;
        rest = behind;
        number += 1;
    }
    reader.conform(number)?;
    Ok(reader.root.unwrap())
}

/// Where the byte stands first. Blocks of bytes are tested at once, and the bytes of the block that has
/// it one by one.
pub fn find(byte: u8, bytes: &[u8]) -> Option<usize> {
    let (blocks, _) = bytes.as_chunks::<16>();
    let skipped = blocks.iter().take_while(|block| !has(byte, block)).count() * 16;
    bytes[skipped..].iter().position(|other| *other == byte).map(|at| skipped + at)
}

/// Without a branch for each byte, so it becomes one comparison of all.
fn has(byte: u8, block: &[u8; 16]) -> bool {
    block.iter().fold(false, |found, other| found | (*other == byte))
}

/// The first line without its end, and the bytes behind its end.
pub fn next_line(bytes: &[u8]) -> Option<(&[u8], &[u8])> {
    if bytes.is_empty() {
        return None;
    }
    let Some(at) = find(b'\n', bytes) else {
        return Some((bytes, &[]));
    };
    let line = &bytes[..at];
    Some((line.strip_suffix(b"\r").unwrap_or(line), &bytes[at + 1..]))
}

fn line_of(line: &[u8]) -> Line<'_> {
    let [lead, rest @ ..] = line else {
        return Line::PassedOver;
    };
    match *lead {
        b'(' => Line::Opens(rest),
        b')' => Line::Closes(rest),
        b'A' => {
            let (name, rest) = cut_space(rest);
            let (kind, value) = cut_space(rest);
            Line::Attribute(name, kind, value)
        }
        b'-' => Line::Characters(rest),
        b'C' => Line::Conforms,
        _ => Line::PassedOver,
    }
}

fn cut_space(bytes: &[u8]) -> (&[u8], &[u8]) {
    match find(b' ', bytes) {
        Some(at) => (&bytes[..at], &bytes[at + 1..]),
        None => (bytes, &[]),
    }
}

fn is_name(bytes: &[u8]) -> bool {
    let is_name_byte = |byte: &u8| *byte >= 33 && *byte != 127 && *byte != b'\\';
    !bytes.is_empty() && bytes.iter().all(is_name_byte)
}

impl<'a> Reader<'a> {
    fn read(&mut self, line: &'a [u8], number: u32) -> Result<(), Fault> {
        match line_of(line) {
            Line::Opens(name) => self.open(name, number),
            Line::Closes(name) => self.close(name, number),
            Line::Attribute(name, kind, raw) => self.wait(name, kind, raw, number),
            Line::Characters(raw) => self.go_on(raw, number),
            Line::Conforms => self.conform(number),
            Line::PassedOver => Ok(()),
        }
    }

    fn open(&mut self, name: &[u8], number: u32) -> Result<(), Fault> {
        if !is_name(name) {
            return Err(Fault::BadName(number));
        }
        if self.frames.is_empty() && self.root.is_some() {
            return Err(Fault::SecondRoot(number));
        }
        if self.frames.len() == MOST_LEVELS {
            return Err(Fault::TooDeep(number));
        }
        self.end_text();
        let kids = take(&mut self.waiting);
        self.names.clear();
        self.frames.push(Frame { name: name.to_vec(), kids });
        Ok(())
    }

    fn close(&mut self, name: &[u8], number: u32) -> Result<(), Fault> {
        if !self.waiting.is_empty() {
            return Err(Fault::BadAttribute(number));
        }
        if self.frames.last().is_none_or(|frame| frame.name != name) {
            return Err(Fault::WrongEnd(number));
        }
        self.end_text();
        self.end_element();
        Ok(())
    }

    fn wait(&mut self, name: &'a [u8], kind: &[u8], raw: &[u8], number: u32) -> Result<(), Fault> {
        if !is_name(name) {
            return Err(Fault::BadName(number));
        }
        if kind.is_empty() {
            return Err(Fault::BadAttribute(number));
        }
        if kind == b"IMPLIED" {
            return Ok(());
        }
        if self.names.contains(name) {
            return Err(Fault::BadAttribute(number));
        }
        let mut value = Vec::new();
        if !push_unescaped(raw, &mut value) {
            return Err(Fault::BadEscape(number));
        }
        self.names.insert(name);
        self.waiting.push(Node::Attr { name: name.to_vec(), value });
        Ok(())
    }

    fn go_on(&mut self, raw: &[u8], number: u32) -> Result<(), Fault> {
        let before = self.running.len();
        if !push_unescaped(raw, &mut self.running) {
            return Err(Fault::BadEscape(number));
        }
        if !self.waiting.is_empty() {
            return Err(Fault::BadAttribute(number));
        }
        if self.frames.is_empty() && self.running.len() != before {
            return Err(Fault::TextOutside(number));
        }
        Ok(())
    }

    fn conform(&self, number: u32) -> Result<(), Fault> {
        if !self.waiting.is_empty() {
            return Err(Fault::BadAttribute(number));
        }
        if !self.frames.is_empty() {
            return Err(Fault::NotEnded(number));
        }
        if self.root.is_none() {
            return Err(Fault::NoElement(number));
        }
        Ok(())
    }

    /// Makes a node of the text that goes on.
    fn end_text(&mut self) {
        if self.running.is_empty() {
            return;
        }
        let mut value = take(&mut self.running);
        value.shrink_to_fit();
        self.put(Node::Text { value });
    }

    fn end_element(&mut self) {
        let Some(Frame { name, mut kids }) = self.frames.pop() else {
            return;
        };
        kids.shrink_to_fit();
        let node = Node::Elem { name, kids };
        if self.frames.is_empty() {
            self.root = Some(node);
            return;
        }
        self.put(node);
    }

    fn put(&mut self, node: Node) {
        if let Some(frame) = self.frames.last_mut() {
            frame.kids.push(node);
        }
    }
}
