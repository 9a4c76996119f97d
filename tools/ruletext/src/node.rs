//! A node record (01, "The rulebook"): four numbers, whatever they are.

/// The kind of an atom.
pub const ATOM: u16 = 1;
/// The kind of a "not".
pub const NOT: u16 = 2;
/// The kind of an "and".
pub const AND: u16 = 3;
/// The kind of an "or".
pub const OR: u16 = 4;
/// The kind of an "implies".
pub const IMPLIES: u16 = 5;
/// The kind of a box, "after every".
pub const BOX: u16 = 6;
/// The kind of a diamond, "after some".
pub const DIAMOND: u16 = 7;

/// A record's length in bytes.
pub const LENGTH: usize = 8;

/// The four numbers of a record.
#[derive(Clone, Copy, Debug, Default, PartialEq, Eq, Hash)]
pub struct Node {
    /// The kind, 1 to 7 if the check knows it.
    pub kind: u16,
    /// An atom's number, or the first child.
    pub first: u16,
    /// The second child.
    pub second: u16,
    /// The relation of a box or a diamond.
    pub relation: u16,
}

impl Node {
    /// The record's bytes.
    #[must_use]
    pub fn bytes(self) -> Vec<u8> {
        let numbers = [self.kind, self.first, self.second, self.relation];
        numbers.into_iter().flat_map(u16::to_le_bytes).collect()
    }

    /// The record that stands in these bytes.
    #[must_use]
    pub fn read(bytes: &[u8; LENGTH]) -> Node {
        let number = |at| u16::from_le_bytes([bytes[at], bytes[at + 1]]);
        Node { kind: number(0), first: number(2), second: number(4), relation: number(6) }
    }
}

#[cfg(test)]
mod tests {
    use super::*;

    #[test]
    fn there_and_back() {
        let node = Node { kind: BOX, first: 0x0102, second: 0, relation: 0xfffe };
        assert_eq!(node.bytes(), [6, 0, 2, 1, 0, 0, 254, 255]);
        assert_eq!(Node::read(node.bytes()[..].try_into().unwrap()), node);
    }
}
