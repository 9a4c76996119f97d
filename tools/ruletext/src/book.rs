//! What a text states of a book, and the bytes it makes.

use crate::header::{self, Header};
use crate::names::Declared;
use crate::node::{self, Node, ATOM, BOX, DIAMOND};

/// A change at the end of the bytes.
#[derive(Clone, Debug)]
pub enum Tail {
    /// These bytes are added.
    Bytes(Vec<u8>),
    /// So many bytes are left off.
    Cut(usize),
}

/// A book as a text states it.
#[derive(Clone, Debug, Default)]
pub struct Book {
    /// The declared names.
    pub declared: Declared,
    /// Whether there is a header with note and nodes, or the tail alone.
    pub header: bool,
    /// Header numbers that stand in place of the computed ones.
    pub stated: [Option<u32>; 6],
    /// The bytes between header and nodes.
    pub note: Vec<u8>,
    /// The nodes, at most 65,535.
    pub nodes: Vec<Node>,
    /// The changes at the end, in order.
    pub tail: Vec<Tail>,
}

impl Book {
    /// The header that fits note and nodes: the least numbers of relations and atoms that serve
    /// the nodes and the names, at least 1; the last node as root.
    #[must_use]
    pub fn computed(&self) -> Header {
        let mut relations = u32::from(self.declared.relations.count()).max(1);
        let mut atoms = u32::from(self.declared.atoms.count()).max(1);
        for node in &self.nodes {
            match node.kind {
                ATOM => atoms = atoms.max(u32::from(node.first) + 1),
                BOX | DIAMOND => relations = relations.max(u32::from(node.relation) + 1),
                _ => {}
            }
        }
        let most = u32::from(u16::MAX);
        let offset = number(header::LENGTH + self.note.len());
        let nodes = number(self.nodes.len());
        let length = number(self.nodes.len() * node::LENGTH);
        let total = offset.saturating_add(length);
        [relations.min(most), atoms.min(most), nodes, nodes.saturating_sub(1), offset, total]
    }

    /// The book's bytes.
    #[must_use]
    pub fn bytes(&self) -> Vec<u8> {
        let mut bytes = Vec::new();
        if self.header {
            let mut header = self.computed();
            for (number, stated) in header.iter_mut().zip(self.stated) {
                *number = stated.unwrap_or(*number);
            }
            bytes.extend(header::bytes(header));
            bytes.extend(&self.note);
            bytes.extend(self.nodes.iter().flat_map(|node| node.bytes()));
        }
        for tail in &self.tail {
            match tail {
                Tail::Bytes(more) => bytes.extend(more),
                Tail::Cut(less) => bytes.truncate(bytes.len().saturating_sub(*less)),
            }
        }
        bytes
    }
}

/// A length as a header number; what no header holds becomes the largest.
fn number(length: usize) -> u32 {
    u32::try_from(length).unwrap_or(u32::MAX)
}

#[cfg(test)]
mod tests {
    use super::*;

    fn book(nodes: &[Node]) -> Book {
        Book { header: true, nodes: nodes.to_vec(), ..Book::default() }
    }

    #[test]
    fn least_numbers_that_serve() {
        let atom = Node { kind: ATOM, first: 4, ..Node::default() };
        let modal = Node { kind: BOX, relation: 2, ..Node::default() };
        assert_eq!(book(&[atom]).computed(), [1, 5, 1, 0, 16, 24]);
        assert_eq!(book(&[atom, modal]).computed(), [3, 5, 2, 1, 16, 32]);
        assert_eq!(book(&[]).computed(), [1, 1, 0, 0, 16, 16]);
        let last = Node { kind: ATOM, first: u16::MAX, ..Node::default() };
        assert_eq!(book(&[last]).computed()[1], 65535);
    }

    #[test]
    fn the_note_moves_the_nodes() {
        let book = Book { note: vec![7; 3], ..book(&[Node::default()]) };
        assert_eq!(book.computed(), [1, 1, 1, 0, 19, 27]);
        assert_eq!(book.bytes()[16..], [7, 7, 7, 0, 0, 0, 0, 0, 0, 0, 0]);
    }

    #[test]
    fn the_tail_in_order() {
        let tail = vec![Tail::Bytes(vec![1, 2, 3]), Tail::Cut(2), Tail::Bytes(vec![4])];
        let mut book = Book { tail, ..Book::default() };
        assert_eq!(book.bytes(), [1, 4]);
        book.tail.push(Tail::Cut(3));
        assert_eq!(book.bytes(), []);
    }
}
