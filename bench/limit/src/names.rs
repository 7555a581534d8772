//! Names by number: 256 recent ones by a fingerprint, and a map behind.

use std::collections::HashMap;

pub struct Names<'a> {
    pub table: Vec<&'a [u8]>,
    known: HashMap<&'a [u8], u32>,
    recent: [u32; 256],
}

impl<'a> Names<'a> {
    pub fn new() -> Names<'a> {
        Names { table: Vec::new(), known: HashMap::new(), recent: [0; 256] }
    }

    /// The name's number, from 0, which it gets here where it is new.
    pub fn number(&mut self, name: &'a [u8]) -> u32 {
        let slot = fingerprint(name);
        let recent = self.recent[slot];
        if self.table.get(recent as usize).is_some_and(|known| *known == name) {
            return recent;
        }
        let next = self.table.len() as u32;
        let number = *self.known.entry(name).or_insert(next);
        if number == next {
            self.table.push(name);
        }
        self.recent[slot] = number;
        number
    }
}

fn fingerprint(name: &[u8]) -> usize {
    let (first, middle, last) = (name[0], name[name.len() / 2], name[name.len() - 1]);
    let mixed = first.wrapping_mul(31).wrapping_add(middle.wrapping_mul(7)).wrapping_add(last.wrapping_mul(3));
    usize::from(mixed.wrapping_add(name.len() as u8))
}
