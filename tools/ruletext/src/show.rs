//! Any bytes as a text that gives the same bytes again.

use crate::book::Book;
use crate::header::{self, Header, FIELDS};
use crate::hex;
use crate::node::{self, Node};
use crate::record;
use std::fmt::Write;

/// The text of a table for these bytes. Without a whole header it is raw bytes, and so is all
/// after the header if the offset points outside.
#[must_use]
pub fn show(bytes: &[u8]) -> String {
    let Some((head, rest)) = bytes.split_first_chunk::<{ header::LENGTH }>() else {
        return hex::lines("bytes", bytes);
    };
    let header = header::read(head);
    let (note, nodes, tail) = parts(header, rest);
    let book = Book { note: note.to_vec(), nodes, ..Book::default() };
    let mut text = numbers(header, book.computed());
    text.push_str(&hex::lines("note", note));
    for (place, node) in book.nodes.iter().enumerate() {
        // Writing to a string can't fail.
        let _ = writeln!(text, "node {:<20} # {place}", record::show(*node));
    }
    text.push_str(&hex::lines("bytes", tail));
    text
}

/// The note, the whole records, and what is left of the bytes after the header.
fn parts(header: Header, rest: &[u8]) -> (&[u8], Vec<Node>, &[u8]) {
    let [_, _, count, _, offset, _] = header;
    let length = usize::try_from(offset).ok().and_then(|at| at.checked_sub(header::LENGTH));
    let Some((note, rest)) = length.and_then(|length| rest.split_at_checked(length)) else {
        return (&[], Vec::new(), rest);
    };
    let records = rest.as_chunks::<{ node::LENGTH }>().0;
    let count = records.len().min(count as usize);
    let nodes = records[..count].iter().map(Node::read).collect();
    (note, nodes, &rest[count * node::LENGTH..])
}

/// The header's lines: relations and atoms always, the others if they are not as computed.
fn numbers(header: Header, computed: Header) -> String {
    let mut text = String::new();
    for (at, field) in FIELDS.iter().enumerate() {
        if at < 2 || header[at] != computed[at] {
            // Writing to a string can't fail.
            let _ = writeln!(text, "{} {}", field.word, header[at]);
        }
    }
    text
}

#[cfg(test)]
mod tests {
    use super::*;
    use crate::text::read;

    fn back(text: &str) -> String {
        let bytes = read(text).unwrap().bytes();
        let shown = show(&bytes);
        assert_eq!(read(&shown).unwrap().bytes(), bytes);
        shown
    }

    #[test]
    fn a_table() {
        let shown = back("relation r s\nnode atom 0\nnode box 0 by 0");
        let nodes = "node atom 0               # 0\nnode box 0 by 0           # 1\n";
        assert_eq!(shown, format!("relations 2\natoms 1\n{nodes}"));
    }

    #[test]
    fn other_numbers_are_stated() {
        let shown = back("root 5\ntotal 8\nnode kind 9 first 1 second 2 relation 3");
        let node = "node kind 9 first 1 second 2 relation 3 # 0\n";
        assert_eq!(shown, format!("relations 1\natoms 1\nroot 5\ntotal 8\n{node}"));
    }

    #[test]
    fn raw_bytes_where_nothing_else_serves() {
        assert_eq!(show(&[]), "");
        assert_eq!(back("bytes 00010203"), "bytes 00 01 02 03\n");
        let shown = back("offset 15\nnode atom 0");
        assert!(shown.ends_with("offset 15\ntotal 24\nbytes 01 00 00 00 00 00 00 00\n"));
        assert_eq!(back("nodes 0"), "relations 1\natoms 1\n");
    }

    #[test]
    fn a_record_cut_short() {
        let shown = back("note aa\nnode atom 0\nnode not 0\ncut 1");
        assert!(shown.contains("nodes 2\nroot 1\ntotal 33\nnote aa\nnode atom 0"));
        assert!(shown.ends_with("bytes 02 00 00 00 00 00 00\n"));
    }
}
