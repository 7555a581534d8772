//! Data and values with their escapes read.

use crate::reader::find;

/// What an escape gives.
enum Given {
    Nothing,
    Byte(u8),
    Scalar(char),
}

/// Appends what the raw bytes give, or is `false` where a backslash among them begins no escape.
pub fn push_unescaped(raw: &[u8], out: &mut Vec<u8>) -> bool {
    let mut rest = raw;
    while let Some(at) = find(b'\\', rest) {
        out.extend_from_slice(&rest[..at]);
        let behind = &rest[at + 1..];
        let Some((given, takes)) = escape_of(behind) else {
            return false;
        };
        match given {
            Given::Nothing => {}
            Given::Byte(byte) => out.push(byte),
            Given::Scalar(scalar) => {
                out.extend_from_slice(scalar.encode_utf8(&mut [0; 4]).as_bytes());
            }
        }
        rest = &behind[takes..];
    }
    out.extend_from_slice(rest);
    true
}

/// The escape whose backslash stands before these bytes, and how many of them it takes.
fn escape_of(behind: &[u8]) -> Option<(Given, usize)> {
    match behind {
        [b'\\', ..] => Some((Given::Byte(b'\\'), 1)),
        [b'n', ..] => Some((Given::Byte(b'\n'), 1)),
        [b'|', ..] => Some((Given::Nothing, 1)),
        [b'#', rest @ ..] => scalar_escape(rest),
        _ => octal_escape(behind),
    }
}

/// `\#n;`, behind the `#`.
fn scalar_escape(rest: &[u8]) -> Option<(Given, usize)> {
    let len = rest.iter().take_while(|byte| byte.is_ascii_digit()).count();
    if len == 0 || rest.get(len) != Some(&b';') {
        return None;
    }
    let number = rest[..len]
        .iter()
        .fold(0, |number, digit| (number * 10 + u32::from(digit - b'0')).min(0x11_0000));
    Some((Given::Scalar(char::from_u32(number)?), 2 + len))
}

fn octal_escape(behind: &[u8]) -> Option<(Given, usize)> {
    let digits = behind.get(..3)?;
    if !digits.iter().all(|digit| (b'0'..=b'7').contains(digit)) {
        return None;
    }
    let number = digits.iter().fold(0, |number, digit| number * 8 + u32::from(digit - b'0'));
    match number {
        10 => Some((Given::Nothing, 3)),
        _ => Some((Given::Byte(u8::try_from(number).ok()?), 3)),
    }
}
