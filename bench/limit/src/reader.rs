//! ESIS lines read into a flat document: the printed lines, and an extent a node.

use crate::escapes::{push_escaped, push_unescaped};
use crate::lines::{find, next_line};
use crate::names::Names;
use std::mem::replace;

const MOST_LEVELS: usize = 512;

#[derive(Clone, Copy, PartialEq)]
pub enum Kind {
    Element,
    Attribute,
    Text,
}

/// Where a node's lines stand.
#[derive(Clone, Copy)]
pub struct Extent {
    pub from: u32,
    pub to: u32,
    pub last: u32,
    pub name: u32,
    pub level: u16,
    pub kind: Kind,
    pub escaped: bool,
}

/// The printed lines, the extents of the nodes in document order, and the names by number.
pub struct Document {
    pub text: Vec<u8>,
    pub extents: Vec<Extent>,
    pub elements: Vec<Vec<u8>>,
    pub attributes: Vec<Vec<u8>>,
}

struct Reader<'a> {
    text: Vec<u8>,
    extents: Vec<Extent>,
    stack: Vec<u32>,
    elements: Names<'a>,
    attributes: Names<'a>,
    /// For each name of an attribute the place of the element that it last waited for, and 1.
    waited: Vec<u32>,
    scratch: Vec<u8>,
    is_going: bool,
    kept: Option<u32>,
}

/// The document that the lines are, or the kind of their first fault and its line.
pub fn read_tree(lines: &[u8]) -> Result<Document, (&'static str, u32)> {
    let mut reader = Reader {
        text: Vec::with_capacity(lines.len()),
        extents: Vec::new(),
        stack: Vec::new(),
        elements: Names::new(),
        attributes: Names::new(),
        waited: Vec::new(),
        scratch: Vec::new(),
        is_going: false,
        kept: None,
    };
    let mut rest = lines;
    let mut number = 1;
    loop {
        if let Some(behind) = reader.end_by(rest) {
            rest = behind;
        } else if let Some((line, behind)) = next_line(rest) {
            reader.read(line).map_err(|fault| (fault, number))?;
            rest = behind;
        } else {
            break;
        }
        number += 1;
    }
    reader.conform().map_err(|fault| (fault, number))?;
    reader.text.shrink_to_fit();
    reader.extents.shrink_to_fit();
    Ok(Document {
        text: reader.text,
        extents: reader.extents,
        elements: reader.elements.table.iter().map(|name| name.to_vec()).collect(),
        attributes: reader.attributes.table.iter().map(|name| name.to_vec()).collect(),
    })
}

fn is_name(bytes: &[u8]) -> bool {
    !bytes.is_empty() && bytes.iter().all(|byte| *byte >= 33 && *byte != 127 && *byte != b'\\')
}

fn cut_space(bytes: &[u8]) -> (&[u8], &[u8]) {
    match bytes.iter().position(|byte| *byte == b' ') {
        Some(at) => (&bytes[..at], &bytes[at + 1..]),
        None => (bytes, &[]),
    }
}

impl<'a> Reader<'a> {
    fn read(&mut self, line: &'a [u8]) -> Result<(), &'static str> {
        match line {
            [b'(', name @ ..] => self.open(name),
            [b')', name @ ..] => self.close(name),
            [b'A', rest @ ..] => self.wait(rest),
            [b'-', raw @ ..] => self.go_on(raw),
            [b'C', ..] => self.conform(),
            _ => Ok(()),
        }
    }

    /// Ends the innermost element where its end tag stands first, and gives what follows.
    fn end_by(&mut self, bytes: &'a [u8]) -> Option<&'a [u8]> {
        let place = *self.stack.last()?;
        let name = self.elements.table[self.extents[place as usize].name as usize];
        let rest = bytes.strip_prefix(b")")?.strip_prefix(name)?.strip_prefix(b"\n")?;
        if self.kept.is_some() {
            return None;
        }
        self.end(name);
        Some(rest)
    }

    fn end(&mut self, name: &[u8]) {
        let place = self.stack.pop().expect("an open element");
        self.text.push(b')');
        self.text.extend_from_slice(name);
        self.text.push(b'\n');
        let last = self.extents.len() as u32;
        let extent = &mut self.extents[place as usize];
        extent.to = self.text.len() as u32;
        extent.last = last;
        self.is_going = false;
    }

    /// The place of the element that attributes wait for, or that begins.
    fn keep(&mut self) -> u32 {
        if let Some(place) = self.kept {
            return place;
        }
        let place = self.extents.len() as u32;
        self.extents.push(Extent {
            from: self.text.len() as u32,
            to: 0,
            last: 0,
            name: 0,
            level: self.stack.len() as u16 + 1,
            kind: Kind::Element,
            escaped: false,
        });
        place
    }

    fn open(&mut self, name: &'a [u8]) -> Result<(), &'static str> {
        if !is_name(name) {
            return Err("bad-name");
        }
        if self.stack.is_empty() && !self.extents.is_empty() && self.kept != Some(0) {
            return Err("second-root");
        }
        if self.stack.len() == MOST_LEVELS {
            return Err("too-deep");
        }
        let place = self.keep();
        self.kept = None;
        self.extents[place as usize].name = self.elements.number(name);
        self.text.push(b'(');
        self.text.extend_from_slice(name);
        self.text.push(b'\n');
        self.stack.push(place);
        self.is_going = false;
        Ok(())
    }

    fn close(&mut self, name: &[u8]) -> Result<(), &'static str> {
        if self.kept.is_some() {
            return Err("bad-attribute");
        }
        let open = self.stack.last().map(|place| self.extents[*place as usize].name as usize);
        if open.is_none_or(|number| self.elements.table[number] != name) {
            return Err("wrong-end");
        }
        self.end(name);
        Ok(())
    }

    fn wait(&mut self, rest: &'a [u8]) -> Result<(), &'static str> {
        let (name, rest) = cut_space(rest);
        let (kind, raw) = cut_space(rest);
        if !is_name(name) {
            return Err("bad-name");
        }
        if kind.is_empty() {
            return Err("bad-attribute");
        }
        if kind == b"IMPLIED" {
            return Ok(());
        }
        let number = self.attributes.number(name);
        self.waited.resize(self.attributes.table.len(), 0);
        let element = self.kept.unwrap_or(self.extents.len() as u32) + 1;
        if replace(&mut self.waited[number as usize], element) == element {
            return Err("bad-attribute");
        }
        let mut scratch = std::mem::take(&mut self.scratch);
        let value = given(raw, &mut scratch)?;
        let from = self.text.len() as u32;
        self.kept = Some(self.keep());
        self.text.push(b'A');
        self.text.extend_from_slice(name);
        self.text.extend_from_slice(b" CDATA ");
        let escaped = push_escaped(value, &mut self.text);
        self.text.push(b'\n');
        self.extents.push(Extent {
            from,
            to: self.text.len() as u32,
            last: self.extents.len() as u32 + 1,
            name: number,
            level: self.stack.len() as u16 + 2,
            kind: Kind::Attribute,
            escaped,
        });
        self.scratch = scratch;
        Ok(())
    }

    fn go_on(&mut self, raw: &[u8]) -> Result<(), &'static str> {
        let mut scratch = std::mem::take(&mut self.scratch);
        let value = given(raw, &mut scratch)?;
        if self.kept.is_some() {
            return Err("bad-attribute");
        }
        if !value.is_empty() {
            if self.stack.is_empty() {
                return Err("text-outside");
            }
            self.take_text(value);
        }
        self.scratch = scratch;
        Ok(())
    }

    fn take_text(&mut self, value: &[u8]) {
        if self.is_going {
            self.text.pop();
        } else {
            self.extents.push(Extent {
                from: self.text.len() as u32,
                to: 0,
                last: self.extents.len() as u32 + 1,
                name: 0,
                level: self.stack.len() as u16 + 1,
                kind: Kind::Text,
                escaped: false,
            });
            self.text.push(b'-');
        }
        let escaped = push_escaped(value, &mut self.text);
        self.text.push(b'\n');
        let extent = self.extents.last_mut().expect("a text");
        extent.to = self.text.len() as u32;
        extent.escaped |= escaped;
        self.is_going = true;
    }

    fn conform(&self) -> Result<(), &'static str> {
        if self.kept.is_some() {
            return Err("bad-attribute");
        }
        if self.extents.is_empty() {
            return Err("no-element");
        }
        if !self.stack.is_empty() {
            return Err("not-ended");
        }
        Ok(())
    }
}

/// What the raw bytes give, which are themselves where they have no escape.
fn given<'b>(raw: &'b [u8], scratch: &'b mut Vec<u8>) -> Result<&'b [u8], &'static str> {
    if find(b'\\', raw).is_none() {
        return Ok(raw);
    }
    scratch.clear();
    if push_unescaped(raw, scratch) {
        Ok(scratch)
    } else {
        Err("bad-escape")
    }
}
