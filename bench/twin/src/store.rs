//! Stores as the proved program makes them: labels by one counter, and a list for each test.

use crate::Node;
use std::collections::BTreeMap;

#[derive(Clone, Copy)]
pub struct Label {
    pub start: u32,
    pub end: u32,
    pub level: u16,
}

#[derive(Clone, Copy)]
pub struct Item {
    pub label: Label,
    pub node: u32,
}

/// A node's label, the number of its parent, and which kid of its parent it is. No program here looks a
/// node up by its number, but the proved one keeps what it takes, so the twin does too.
#[allow(dead_code)]
struct Entry {
    label: Label,
    parent: u32,
    kid: u32,
}

#[derive(Default)]
struct Lists {
    elements: BTreeMap<Vec<u8>, Vec<Item>>,
    all_elements: Vec<Item>,
    attrs: BTreeMap<Vec<u8>, Vec<Item>>,
    all_attrs: Vec<Item>,
    texts: Vec<Item>,
}

#[allow(dead_code)]
pub struct Store {
    root: Node,
    entries: Vec<Entry>,
    document: Item,
    lists: Lists,
}

impl Store {
    pub fn build(root: Node) -> Store {
        let mut entries = Vec::new();
        entries.push(entry_at(1, 2, 0, 0, 0));
        entries[0].label.end = enter(&root, 2, 0, 0, 1, &mut entries);
        let mut lists = Lists::default();
        list(&root, 1, &entries, &mut lists);
        let document = item(&entries, 0);
        Store { root, entries, document, lists }
    }

    pub fn document_item(&self) -> &[Item] {
        std::slice::from_ref(&self.document)
    }

    pub fn named(&self, name: &[u8]) -> &[Item] {
        self.lists.elements.get(name).map_or(&[], Vec::as_slice)
    }

    pub fn elements(&self) -> &[Item] {
        &self.lists.all_elements
    }

    pub fn attributes(&self) -> &[Item] {
        &self.lists.all_attrs
    }

    pub fn texts(&self) -> &[Item] {
        &self.lists.texts
    }
}

fn entry_at(start: u32, end: u32, level: u16, parent: u32, kid: u32) -> Entry {
    Entry { label: Label { start, end, level }, parent, kid }
}

fn item(entries: &[Entry], number: u32) -> Item {
    Item { label: entries[number as usize].label, node: number }
}

/// Adds the entries of a node and of all nodes below it; answers where the counter then stands.
fn enter(node: &Node, clock: u32, parent: u32, kid: u32, level: u16, out: &mut Vec<Entry>) -> u32 {
    let number = out.len();
    out.push(entry_at(clock, clock + 1, level, parent, kid));
    let Node::Elem { kids, .. } = node else {
        return clock + 2;
    };
    let mut now = clock + 1;
    for (kid, node) in kids.iter().enumerate() {
        now = enter(node, now, number as u32, kid as u32, level + 1, out);
    }
    out[number] = entry_at(clock, now, level, parent, kid);
    now + 1
}

/// Lists a node and all nodes below it; answers the number behind them.
fn list(node: &Node, number: u32, entries: &[Entry], lists: &mut Lists) -> u32 {
    let here = item(entries, number);
    match node {
        Node::Elem { name, kids } => {
            push(&mut lists.elements, name, here);
            lists.all_elements.push(here);
            kids.iter().fold(number + 1, |next, kid| list(kid, next, entries, lists))
        }
        Node::Attr { name, .. } => {
            push(&mut lists.attrs, name, here);
            lists.all_attrs.push(here);
            number + 1
        }
        Node::Text { .. } => {
            lists.texts.push(here);
            number + 1
        }
    }
}

fn push(lists: &mut BTreeMap<Vec<u8>, Vec<Item>>, name: &[u8], item: Item) {
    match lists.get_mut(name) {
        Some(list) => list.push(item),
        None => {
            lists.insert(name.to_vec(), vec![item]);
        }
    }
}
