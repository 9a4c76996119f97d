//! Bytes in words of hexadecimal digits, two a byte.

use crate::fault::Fault;
use crate::words::{Word, Words};
use std::fmt::Write;

/// Bytes on a line that is written.
const A_LINE: usize = 16;

/// Reads the bytes up to the end of the statement; there may be none.
///
/// # Errors
/// If a word has other signs, or an odd number of digits.
pub fn read(words: &mut Words<'_>) -> Result<Vec<u8>, Fault> {
    let mut bytes = Vec::new();
    for word in words {
        let Word { text, .. } = word;
        if !text.bytes().all(|sign| sign.is_ascii_hexdigit()) {
            return Err(word.fault(format!("`{text}` is not hexadecimal")));
        }
        if text.len() % 2 != 0 {
            return Err(word.fault(format!("`{text}` has an odd number of hexadecimal digits")));
        }
        bytes.extend(text.as_bytes().chunks(2).map(|pair| digit(pair[0]) << 4 | digit(pair[1])));
    }
    Ok(bytes)
}

/// The value of a hexadecimal digit.
fn digit(sign: u8) -> u8 {
    match sign {
        b'0'..=b'9' => sign - b'0',
        b'a'..=b'f' => sign - b'a' + 10,
        _ => sign - b'A' + 10,
    }
}

/// Writes bytes as lines that start with a word; without bytes there are none.
#[must_use]
pub fn lines(word: &str, bytes: &[u8]) -> String {
    let mut text = String::new();
    for line in bytes.chunks(A_LINE) {
        text.push_str(word);
        for byte in line {
            // Writing to a string can't fail.
            let _ = write!(text, " {byte:02x}");
        }
        text.push('\n');
    }
    text
}

#[cfg(test)]
mod tests {
    use super::*;
    use crate::words::statements;

    fn bytes(text: &str) -> Result<Vec<u8>, Fault> {
        read(&mut statements(text).unwrap()[0])
    }

    #[test]
    fn words_of_digits() {
        assert_eq!(bytes("00 ff\n 0aB1").unwrap(), [0, 255, 10, 177]);
        assert_eq!(bytes("0x").unwrap_err().to_string(), "line 1: `0x` is not hexadecimal");
        let fault = bytes("00\n 123").unwrap_err();
        assert_eq!(fault.to_string(), "line 2: `123` has an odd number of hexadecimal digits");
    }

    #[test]
    fn written_lines() {
        assert_eq!(lines("note", &[]), "");
        assert_eq!(lines("note", &[0, 171]), "note 00 ab\n");
        assert_eq!(lines("bytes", &[1; 17]).lines().count(), 2);
    }
}
