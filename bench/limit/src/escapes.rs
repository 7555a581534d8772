//! Escapes as ESIS lines have them, read and printed.

use crate::lines::find;

/// Appends what the raw bytes give, or is `false` where a backslash among them begins no escape.
pub fn push_unescaped(raw: &[u8], out: &mut Vec<u8>) -> bool {
    let mut rest = raw;
    while let Some(at) = find(b'\\', rest) {
        out.extend_from_slice(&rest[..at]);
        let behind = &rest[at + 1..];
        let Some(takes) = push_escape(behind, out) else { return false };
        rest = &behind[takes..];
    }
    out.extend_from_slice(rest);
    true
}

/// Appends what the escape gives whose backslash stands before these bytes; says how many of them it takes.
fn push_escape(behind: &[u8], out: &mut Vec<u8>) -> Option<usize> {
    match behind {
        [b'\\', ..] => out.push(b'\\'),
        [b'n', ..] => out.push(b'\n'),
        [b'|', ..] => {}
        [b'#', rest @ ..] => {
            let len = rest.iter().take_while(|byte| byte.is_ascii_digit()).count();
            if len == 0 || rest.get(len) != Some(&b';') {
                return None;
            }
            let number = rest[..len].iter().fold(0u32, |n, d| (n * 10 + u32::from(d - b'0')).min(0x11_0000));
            let scalar = char::from_u32(number)?;
            out.extend_from_slice(scalar.encode_utf8(&mut [0; 4]).as_bytes());
            return Some(len + 2);
        }
        [a @ b'0'..=b'7', b @ b'0'..=b'7', c @ b'0'..=b'7', ..] => {
            let number = (u32::from(a - b'0') * 8 + u32::from(b - b'0')) * 8 + u32::from(c - b'0');
            if number > 255 {
                return None;
            }
            if number != 10 {
                out.push(number as u8);
            }
            return Some(3);
        }
        _ => return None,
    }
    Some(1)
}

fn is_plain(byte: &u8) -> bool {
    *byte >= 32 && *byte != 127 && *byte != b'\\'
}

/// Appends the bytes as they print, and says whether one of them is escaped.
pub fn push_escaped(value: &[u8], out: &mut Vec<u8>) -> bool {
    let mut rest = value;
    while let Some(at) = rest.iter().position(|byte| !is_plain(byte)) {
        out.extend_from_slice(&rest[..at]);
        match rest[at] {
            b'\\' => out.extend_from_slice(b"\\\\"),
            b'\n' => out.extend_from_slice(b"\\n"),
            byte => out.extend_from_slice(&[b'\\', b'0' + byte / 64, b'0' + byte / 8 % 8, b'0' + byte % 8]),
        }
        rest = &rest[at + 1..];
    }
    out.extend_from_slice(rest);
    rest.len() != value.len()
}
