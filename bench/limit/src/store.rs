//! A document with the lists of its nodes by kind and name, each node with its label.

use crate::reader::{Document, Kind};

/// The label of a node, and its number.
#[derive(Clone, Copy)]
pub struct Item {
    pub start: u32,
    pub end: u32,
    pub level: u16,
    pub node: u32,
}

pub struct Store {
    pub document: Document,
    pub elements: Vec<Vec<Item>>,
    pub all_elements: Vec<Item>,
    pub attributes: Vec<Vec<Item>>,
    pub all_attributes: Vec<Item>,
    pub texts: Vec<Item>,
}

impl Store {
    pub fn build(document: Document) -> Store {
        let mut elements = vec![Vec::new(); document.elements.len()];
        let mut attributes = vec![Vec::new(); document.attributes.len()];
        let (mut all_elements, mut all_attributes, mut texts) = (Vec::new(), Vec::new(), Vec::new());
        for (number, extent) in (1..).zip(&document.extents) {
            let start = 2 * number + 1 - u32::from(extent.level);
            let end = start + 2 * (extent.last - number) + 1;
            let item = Item { start, end, level: extent.level, node: number };
            match extent.kind {
                Kind::Element => {
                    elements[extent.name as usize].push(item);
                    all_elements.push(item);
                }
                Kind::Attribute => {
                    attributes[extent.name as usize].push(item);
                    all_attributes.push(item);
                }
                Kind::Text => texts.push(item),
            }
        }
        Store { document, elements, all_elements, attributes, all_attributes, texts }
    }

    /// The elements of a name, by start.
    pub fn named(&self, name: &[u8]) -> &[Item] {
        match self.document.elements.iter().position(|known| known == name) {
            Some(number) => &self.elements[number],
            None => &[],
        }
    }

    /// The printed lines of a node.
    pub fn printed(&self, number: u32) -> &[u8] {
        let extent = &self.document.extents[number as usize - 1];
        &self.document.text[extent.from as usize..extent.to as usize]
    }
    pub fn name(&self, number: u32) -> &[u8] {
        &self.document.elements[self.document.extents[number as usize - 1].name as usize]
    }

    /// The lines of the attributes of an element.
    pub fn attribute_lines(&self, number: u32) -> &[u8] {
        &self.printed(number)[..self.attributes_len(number)]
    }

    /// The lines of an element between its start and its end.
    pub fn content_lines(&self, number: u32) -> &[u8] {
        let lines = self.printed(number);
        let line = self.name(number).len() + 2;
        &lines[self.attributes_len(number) + line..lines.len() - line]
    }

    /// Whether the last kid of an element is a text.
    pub fn ends_with_text(&self, number: u32) -> bool {
        let extents = &self.document.extents;
        let element = &extents[number as usize - 1];
        let last = &extents[element.last as usize - 1];
        last.kind == Kind::Text && last.level == element.level + 1
    }

    fn attributes_len(&self, number: u32) -> usize {
        let attributes = self.document.extents[number as usize..].iter().take_while(|extent| extent.kind == Kind::Attribute);
        let from = self.document.extents[number as usize - 1].from;
        attributes.last().map_or(0, |extent| extent.to - from) as usize
    }
}
