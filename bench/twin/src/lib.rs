//! What the plain programs share: input, documents, reading and joining them, and the order of commands.

pub mod join;
pub mod reader;
pub mod rounds;
pub mod store;
mod unescaped;

use std::io::{self, ErrorKind, Read};

// Bytes of input, and bytes that one read asks for, at most.
pub const MOST_BYTES: usize = 67_108_864;
const BUFFER: usize = 65_536;

/// A node of a document.
pub enum Node {
    Elem { name: Vec<u8>, kids: Vec<Node> },
    Attr { name: Vec<u8>, value: Vec<u8> },
    Text { value: Vec<u8> },
}

/// The bytes up to the end, or more than `MOST_BYTES` where there are more.
pub fn read_up_to_most(source: &mut impl Read) -> io::Result<Vec<u8>> {
    let mut buffer = vec![0; BUFFER];
    let mut bytes = Vec::new();
    while bytes.len() <= MOST_BYTES {
        match source.read(&mut buffer) {
            Ok(0) => break,
            Ok(count) => bytes.extend_from_slice(&buffer[..count]),
            Err(error) if error.kind() == ErrorKind::Interrupted => {}
            Err(error) => return Err(error),
        }
    }
    Ok(bytes)
}
