//! [`Form`]: how keys and values are spelled.

use crate::failure::{Failure, Outcome};
use std::ffi::OsStr;
use std::fmt::Write;
use std::os::unix::ffi::OsStrExt;

/// How keys and values are spelled.
#[derive(Clone, Copy, Debug, PartialEq, Eq)]
pub enum Form {
    /// UTF-8, with escapes of bytes that are no printable characters, and of backslashes.
    Escaped,
    /// Two hexadecimal digits for each byte.
    Hex,
}

impl Form {
    /// Appends the spelling of some bytes.
    pub fn push(self, bytes: &[u8], line: &mut String) {
        match self {
            Form::Escaped => push_escaped(bytes, line),
            Form::Hex => push_hex(bytes, line),
        }
    }

    /// The bytes of a word of the command line.
    pub fn word(self, word: &OsStr) -> Outcome<Vec<u8>> {
        let read = self.read(word.as_bytes());
        read.map_err(|why| Failure::Refused(format!("{}: {why}", word.to_string_lossy())))
    }

    /// The bytes that are spelled so, or why there are none.
    pub fn read(self, spelled: &[u8]) -> Result<Vec<u8>, &'static str> {
        match self {
            Form::Escaped => read_escaped(spelled),
            Form::Hex => read_hex(spelled),
        }
    }
}

fn push_hex(bytes: &[u8], line: &mut String) {
    for byte in bytes {
        write!(line, "{byte:02x}").expect("a string takes all");
    }
}

fn push_escaped(bytes: &[u8], line: &mut String) {
    for chunk in bytes.utf8_chunks() {
        for character in chunk.valid().chars() {
            match character {
                '\\' => line.push_str("\\\\"),
                '\t' => line.push_str("\\t"),
                '\n' => line.push_str("\\n"),
                '\r' => line.push_str("\\r"),
                character if character.is_control() => {
                    push_bytes(character.encode_utf8(&mut [0; 4]).as_bytes(), line);
                }
                character => line.push(character),
            }
        }
        push_bytes(chunk.invalid(), line);
    }
}

fn push_bytes(bytes: &[u8], line: &mut String) {
    for byte in bytes {
        write!(line, "\\x{byte:02x}").expect("a string takes all");
    }
}

fn read_hex(spelled: &[u8]) -> Result<Vec<u8>, &'static str> {
    let (pairs, []) = spelled.as_chunks::<2>() else {
        return Err("an odd number of hexadecimal digits");
    };
    pairs.iter().map(|pair| byte_of(*pair)).collect()
}

/// The byte of two hexadecimal digits.
fn byte_of([high, low]: [u8; 2]) -> Result<u8, &'static str> {
    let digit = |code: u8| char::from(code).to_digit(16);
    match (digit(high), digit(low)) {
        (Some(high), Some(low)) => Ok((high << 4 | low) as u8),
        _ => Err("no hexadecimal digit"),
    }
}

fn read_escaped(spelled: &[u8]) -> Result<Vec<u8>, &'static str> {
    let mut bytes = Vec::with_capacity(spelled.len());
    let mut rest = spelled;
    while let Some((first, after)) = rest.split_first() {
        let (byte, after) = match (first, after) {
            (b'\\', [b'\\', after @ ..]) => (b'\\', after),
            (b'\\', [b't', after @ ..]) => (b'\t', after),
            (b'\\', [b'n', after @ ..]) => (b'\n', after),
            (b'\\', [b'r', after @ ..]) => (b'\r', after),
            (b'\\', [b'x', high, low, after @ ..]) => (byte_of([*high, *low])?, after),
            (b'\\', _) => return Err("an unknown escape: a backslash is \\\\"),
            (byte, after) => (*byte, after),
        };
        bytes.push(byte);
        rest = after;
    }
    Ok(bytes)
}

#[cfg(test)]
mod tests {
    use super::*;

    fn spelled(form: Form, bytes: &[u8]) -> String {
        let mut line = String::new();
        form.push(bytes, &mut line);
        line
    }

    #[test]
    fn each_byte_is_read_as_it_is_spelled() {
        for form in [Form::Escaped, Form::Hex] {
            for first in 0..=u8::MAX {
                for second in [0, b'\\', b'n', b'x', 0x80, 0xc3, first] {
                    let bytes = [first, second, first];
                    let spelled = spelled(form, &bytes);
                    assert!(!spelled.contains(['\t', '\n', '\r', '\0']), "{spelled:?}");
                    assert_eq!(form.read(spelled.as_bytes()).unwrap(), bytes, "{spelled}");
                }
            }
        }
    }

    #[test]
    fn characters_stay_as_they_are() {
        assert_eq!(
            spelled(Form::Escaped, "Größe 5\\t".as_bytes()),
            "Größe 5\\\\t"
        );
        assert_eq!(spelled(Form::Escaped, b"\xff\x00\x1b"), "\\xff\\x00\\x1b");
        assert_eq!(spelled(Form::Hex, b"\xff\x00"), "ff00");
        assert_eq!(Form::Hex.read(b"fF0a").unwrap(), b"\xff\x0a");
    }

    #[test]
    fn other_spellings_are_refused() {
        for word in ["\\", "\\y", "\\x", "\\x0", "\\xg0", "a\\"] {
            Form::Escaped.read(word.as_bytes()).unwrap_err();
        }
        for word in ["0", "0g", "\\x00", " 0"] {
            Form::Hex.read(word.as_bytes()).unwrap_err();
        }
    }
}
