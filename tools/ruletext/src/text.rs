//! A whole text, statement by statement.

use crate::book::{Book, Tail};
use crate::fault::Fault;
use crate::formula;
use crate::header::FIELDS;
use crate::hex;
use crate::node::{Node, AND};
use crate::record;
use crate::sharing::{Sharing, TOO_MANY};
use crate::words::{statements, Word, Words};

const MIXED: &str = "a text has rules or nodes, not both";

/// Reads a text.
///
/// # Errors
/// If it is not understood; what the check refuses is no fault here.
pub fn read(text: &str) -> Result<Book, Fault> {
    let mut reader = Reader::default();
    for words in statements(text)? {
        reader.statement(words)?;
    }
    Ok(reader.book())
}

#[derive(Default)]
struct Reader {
    book: Book,
    /// The nodes of all rules so far.
    rules: Sharing,
    /// The conjunction of all rules so far.
    root: Option<u16>,
}

impl Reader {
    fn statement(&mut self, mut words: Words<'_>) -> Result<(), Fault> {
        let word = words.word("a statement")?;
        match word.text {
            "bytes" => self.book.tail.push(Tail::Bytes(hex::read(&mut words)?)),
            "cut" => self.book.tail.push(Tail::Cut(words.number()?)),
            _ => {
                self.book.header = true;
                self.part(word, &mut words)?;
            }
        }
        words.end()
    }

    /// A statement about header, note or nodes.
    fn part(&mut self, word: Word<'_>, words: &mut Words<'_>) -> Result<(), Fault> {
        match word.text {
            "relation" => self.book.declared.relations.declare(words),
            "atom" => self.book.declared.atoms.declare(words),
            "rule" => self.rule(word, words),
            "node" => self.node(word, words),
            "note" => {
                self.book.note.extend(hex::read(words)?);
                Ok(())
            }
            _ => self.number(word, words),
        }
    }

    fn rule(&mut self, word: Word<'_>, words: &mut Words<'_>) -> Result<(), Fault> {
        if !self.book.nodes.is_empty() {
            return Err(word.fault(MIXED));
        }
        let rule = formula::read(words, &self.book.declared, &mut self.rules)?;
        let root = match self.root {
            None => Some(rule),
            Some(first) => {
                self.rules.place(Node { kind: AND, first, second: rule, ..Node::default() })
            }
        };
        self.root = Some(root.ok_or_else(|| word.fault(TOO_MANY))?);
        Ok(())
    }

    fn node(&mut self, word: Word<'_>, words: &mut Words<'_>) -> Result<(), Fault> {
        if self.root.is_some() {
            return Err(word.fault(MIXED));
        }
        if self.book.nodes.len() == usize::from(u16::MAX) {
            return Err(word.fault(TOO_MANY));
        }
        self.book.nodes.push(record::read(words)?);
        Ok(())
    }

    /// A header number in place of the computed one.
    fn number(&mut self, word: Word<'_>, words: &mut Words<'_>) -> Result<(), Fault> {
        let Word { text, .. } = word;
        let Some(at) = FIELDS.iter().position(|field| field.word == text) else {
            return Err(word.fault(format!("`{text}` starts no statement")));
        };
        let number = words.word("a number")?;
        let stated = number.number()?;
        if !FIELDS[at].holds(stated) {
            return Err(number.fault(format!("{stated} is too large here")));
        }
        match self.book.stated[at].replace(stated) {
            Some(_) => Err(word.fault(format!("`{text}` is stated already"))),
            None => Ok(()),
        }
    }

    fn book(self) -> Book {
        let Reader { mut book, rules, root } = self;
        if root.is_some() {
            book.nodes = rules.into_nodes();
        }
        book
    }
}

#[cfg(test)]
mod tests {
    use super::*;

    fn bytes(text: &str) -> Vec<u8> {
        read(text).unwrap().bytes()
    }

    const M3: [u8; 56] = [
        1, 0, 1, 0, 5, 0, 4, 0, 16, 0, 0, 0, 56, 0, 0, 0, // header
        1, 0, 0, 0, 0, 0, 0, 0, // p
        2, 0, 0, 0, 0, 0, 0, 0, // not 0
        7, 0, 0, 0, 0, 0, 0, 0, // dia 0
        7, 0, 1, 0, 0, 0, 0, 0, // dia 1
        3, 0, 2, 0, 3, 0, 0, 0, // and 2 3
    ];

    #[test]
    fn a_table() {
        let text =
            "node atom 0\nnode not 0\nnode diamond 0 by 0\nnode diamond 1 by 0\nnode and 2 3";
        assert_eq!(bytes(text), M3);
    }

    #[test]
    fn rules_are_one_conjunction_from_the_left() {
        let rules = "relation r\natom p q\nrule p\nrule after some r: q\nrule p\nrule q";
        let table = "relations 1\natoms 2\nnode atom 0\nnode atom 1\nnode diamond 1 by 0\n\
                     node and 0 2\nnode and 3 0\nnode and 4 1";
        assert_eq!(bytes(rules), bytes(table));
        let one = "atom p\nrule not p";
        assert_eq!(bytes(one), bytes("node atom 0\nnode not 0"));
    }

    #[test]
    fn declared_names_count() {
        assert_eq!(bytes("relation r s\natom p q x\nrule q")[..4], [2, 0, 3, 0]);
        assert_eq!(bytes("relation r\natom p"), bytes("relations 1\natoms 1"));
    }

    #[test]
    fn stated_numbers_stand() {
        let text =
            "relations 17\natoms 300\nnodes 7\nroot 9\noffset 15\ntotal 4294967295\nnode atom 0";
        let header = [17, 0, 44, 1, 7, 0, 9, 0, 15, 0, 0, 0, 255, 255, 255, 255];
        assert_eq!(bytes(text)[..16], header);
        assert_eq!(bytes(text)[16..], [1, 0, 0, 0, 0, 0, 0, 0]);
    }

    #[test]
    fn note_and_tail() {
        assert_eq!(
            bytes("note 01 02\nnote 03\nnode atom 0")[8..19],
            [19, 0, 0, 0, 27, 0, 0, 0, 1, 2, 3]
        );
        assert_eq!(bytes("node atom 0\nbytes ff\ncut 3").len(), 22);
        assert_eq!(bytes("bytes 01 02\ncut 1"), [1]);
        assert_eq!(bytes("# nothing\n"), []);
    }

    #[test]
    fn faults() {
        let wrong = [
            ("\nrules p", "line 2: `rules` starts no statement"),
            ("rule p", "line 1: no atom `p` is declared"),
            ("atom", "line 1: a name is missing at the end"),
            ("atom p\nrule p\nnode atom 0", "line 3: a text has rules or nodes, not both"),
            ("atom p\nnode atom 0\nrule p", "line 3: a text has rules or nodes, not both"),
            ("root 65536", "line 1: 65536 is too large here"),
            ("total 4294967296", "line 1: 4294967296 is too large here"),
            ("root 1 2", "line 1: `2` is one word too many"),
            ("root 1\nroot 1", "line 2: `root` is stated already"),
            ("cut x", "line 1: `x` is not a number"),
        ];
        for (text, fault) in wrong {
            assert_eq!(read(text).unwrap_err().to_string(), fault);
        }
    }
}
