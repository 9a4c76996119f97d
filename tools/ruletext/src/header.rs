//! The six numbers of a book's header (01, "The rulebook"): their words, widths and bytes.

/// A number of the header.
#[derive(Clone, Copy, Debug)]
pub struct Field {
    /// The word that states it in a text.
    pub word: &'static str,
    /// Its width in bytes.
    pub width: usize,
}

impl Field {
    /// Whether the field holds a number.
    #[must_use]
    pub fn holds(self, number: u32) -> bool {
        u64::from(number) >> (8 * self.width) == 0
    }
}

/// The fields in the order of the header.
pub const FIELDS: [Field; 6] = [
    Field { word: "relations", width: 2 },
    Field { word: "atoms", width: 2 },
    Field { word: "nodes", width: 2 },
    Field { word: "root", width: 2 },
    Field { word: "offset", width: 4 },
    Field { word: "total", width: 4 },
];

/// The header's length in bytes.
pub const LENGTH: usize = 16;

/// The numbers in the order of [`FIELDS`], each within its width.
pub type Header = [u32; 6];

/// A header's bytes.
#[must_use]
pub fn bytes(header: Header) -> Vec<u8> {
    let fields = FIELDS.iter().zip(header);
    fields.flat_map(|(field, number)| number.to_le_bytes().into_iter().take(field.width)).collect()
}

/// The header that stands in these bytes.
#[must_use]
pub fn read(bytes: &[u8; LENGTH]) -> Header {
    let mut rest = &bytes[..];
    FIELDS.map(|field| {
        let (here, after) = rest.split_at(field.width);
        rest = after;
        here.iter().rev().fold(0, |number, &byte| number << 8 | u32::from(byte))
    })
}

#[cfg(test)]
mod tests {
    use super::*;

    #[test]
    fn there_and_back() {
        let header = [1, 2, 0xfffe, 0x0304, 0x0506_0708, 0xffff_fff0];
        let bytes = bytes(header);
        assert_eq!(bytes, [1, 0, 2, 0, 254, 255, 4, 3, 8, 7, 6, 5, 240, 255, 255, 255]);
        assert_eq!(read(bytes[..].try_into().unwrap()), header);
    }

    #[test]
    fn widths() {
        assert!(FIELDS[0].holds(65535) && !FIELDS[0].holds(65536));
        assert!(FIELDS[5].holds(u32::MAX));
        assert_eq!(FIELDS.iter().map(|field| field.width).sum::<usize>(), LENGTH);
    }
}
