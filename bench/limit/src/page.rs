//! A page of lines that is written from front to back.

/// Texts that follow each other share a line; the last line may be of a text, and have no end yet.
#[derive(Default)]
pub struct Page {
    out: Vec<u8>,
    is_going: bool,
}

impl Page {
    fn end(&mut self) {
        if self.is_going {
            self.out.push(b'\n');
            self.is_going = false;
        }
    }

    fn named(&mut self, sign: u8, name: &[u8]) {
        self.end();
        self.out.push(sign);
        self.out.extend_from_slice(name);
        self.out.push(b'\n');
    }

    pub fn open(&mut self, name: &[u8]) {
        self.named(b'(', name);
    }

    pub fn close(&mut self, name: &[u8]) {
        self.named(b')', name);
    }

    /// Lines as they stand.
    pub fn lines(&mut self, lines: &[u8]) {
        self.end();
        self.out.extend_from_slice(lines);
    }

    /// Lines of which the first or the last may be a text's.
    pub fn content(&mut self, lines: &[u8], ends_with_text: bool) {
        match lines {
            [b'-', rest @ ..] if self.is_going => self.out.extend_from_slice(rest),
            [] => return,
            _ => self.lines(lines),
        }
        self.is_going = false;
        if ends_with_text {
            self.out.pop();
            self.is_going = true;
        }
    }

    /// All lines, the last one ended.
    pub fn into_lines(mut self) -> Vec<u8> {
        self.end();
        self.out
    }
}
