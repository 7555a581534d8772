//! Lines of a text.

/// Where the byte stands first. Blocks of bytes are tested at once, and the bytes of the block that has
/// it one by one.
pub fn find(byte: u8, bytes: &[u8]) -> Option<usize> {
    let (blocks, _) = bytes.as_chunks::<16>();
    let skipped = blocks.iter().take_while(|block| !has(byte, block)).count() * 16;
    bytes[skipped..].iter().position(|other| *other == byte).map(|at| skipped + at)
}

/// Without a branch for each byte, so it becomes one comparison of all.
fn has(byte: u8, block: &[u8; 16]) -> bool {
    block.iter().fold(false, |found, other| found | (*other == byte))
}

/// The first line without its end, and the bytes behind its end.
pub fn next_line(bytes: &[u8]) -> Option<(&[u8], &[u8])> {
    if bytes.is_empty() {
        return None;
    }
    let Some(at) = find(b'\n', bytes) else {
        return Some((bytes, &[]));
    };
    let line = &bytes[..at];
    Some((line.strip_suffix(b"\r").unwrap_or(line), &bytes[at + 1..]))
}

/// What stands before the first line that is `.` alone, and behind it.
pub fn cut_body(bytes: &[u8]) -> Option<(&[u8], &[u8])> {
    let mut from = 0;
    loop {
        if bytes[from..].starts_with(b".\n") {
            return Some((&bytes[..from], &bytes[from + 2..]));
        }
        from += find(b'.', &bytes[from..])?;
        while from > 0 && bytes[from - 1] != b'\n' {
            from += 1 + find(b'.', &bytes[from + 1..])?;
        }
        if bytes[from..].starts_with(b".\n") {
            continue;
        }
        from += 1 + find(b'\n', &bytes[from..])?;
    }
}
