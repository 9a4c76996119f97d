//! A node record in words: `atom 0`, `not 0`, `and 2 3`, `box 1 by 0`, and for any four numbers
//! `kind 9 first 1 second 2 relation 3`.

use crate::fault::Fault;
use crate::node::{Node, AND, ATOM, BOX, DIAMOND, IMPLIES, NOT, OR};
use crate::words::Words;

/// Which numbers a kind uses; the others are 0.
#[derive(Clone, Copy)]
enum Uses {
    First,
    Both,
    FirstAndRelation,
}

/// The known kinds by word.
const KINDS: [(&str, u16, Uses); 7] = [
    ("atom", ATOM, Uses::First),
    ("not", NOT, Uses::First),
    ("and", AND, Uses::Both),
    ("or", OR, Uses::Both),
    ("implies", IMPLIES, Uses::Both),
    ("box", BOX, Uses::FirstAndRelation),
    ("diamond", DIAMOND, Uses::FirstAndRelation),
];

/// Reads a record to the end of its statement.
///
/// # Errors
/// If the words state no record.
pub fn read(words: &mut Words<'_>) -> Result<Node, Fault> {
    let word = words.word("the kind of the node")?;
    if word.text == "kind" {
        return numbers(words);
    }
    let known = KINDS.iter().find(|known| known.0 == word.text);
    let Some(&(_, kind, uses)) = known else {
        return Err(word.fault(format!("`{}` is no kind of node", word.text)));
    };
    let mut node = Node { kind, first: words.number()?, ..Node::default() };
    match uses {
        Uses::First => {}
        Uses::Both => node.second = words.number()?,
        Uses::FirstAndRelation => {
            words.expect("by")?;
            node.relation = words.number()?;
        }
    }
    words.end()?;
    Ok(node)
}

/// Reads the four numbers after `kind`.
fn numbers(words: &mut Words<'_>) -> Result<Node, Fault> {
    let kind = words.number()?;
    words.expect("first")?;
    let first = words.number()?;
    words.expect("second")?;
    let second = words.number()?;
    words.expect("relation")?;
    let relation = words.number()?;
    words.end()?;
    Ok(Node { kind, first, second, relation })
}

/// A record in the shortest words that [`read`] takes back to it.
#[must_use]
pub fn show(node: Node) -> String {
    let Node { kind, first, second, relation } = node;
    let known = KINDS.iter().find(|known| known.1 == kind);
    match (known, second, relation) {
        (Some((word, _, Uses::First)), 0, 0) => format!("{word} {first}"),
        (Some((word, _, Uses::Both)), _, 0) => format!("{word} {first} {second}"),
        (Some((word, _, Uses::FirstAndRelation)), 0, _) => format!("{word} {first} by {relation}"),
        _ => format!("kind {kind} first {first} second {second} relation {relation}"),
    }
}

#[cfg(test)]
mod tests {
    use super::*;
    use crate::words::statements;

    fn node(text: &str) -> Result<Node, Fault> {
        read(&mut statements(text).unwrap()[0])
    }

    #[test]
    fn every_kind_there_and_back() {
        let texts = [
            "atom 0",
            "not 7",
            "and 2 3",
            "or 0 65535",
            "implies 1 1",
            "box 1 by 0",
            "diamond 0 by 16",
            "kind 0 first 0 second 0 relation 0",
            "kind 1 first 0 second 1 relation 0",
            "kind 3 first 0 second 1 relation 1",
            "kind 7 first 0 second 1 relation 0",
            "kind 8 first 1 second 2 relation 3",
            "kind 65535 first 65535 second 65535 relation 65535",
        ];
        for text in texts {
            assert_eq!(show(node(text).unwrap()), text);
        }
    }

    #[test]
    fn long_words_for_a_known_record() {
        assert_eq!(node("kind 6 first 1 second 0 relation 2"), node("box 1 by 2"));
    }

    #[test]
    fn faults() {
        let wrong = [
            ("iff 0 1", "line 1: `iff` is no kind of node"),
            ("and 0", "line 1: a number is missing at the end"),
            ("and 0 1 2", "line 1: `2` is one word too many"),
            ("box 1 0", "line 1: `0` stands where `by` should"),
            ("atom 65536", "line 1: 65536 is too large here"),
            ("kind 1 second 2", "line 1: `second` stands where `first` should"),
        ];
        for (text, fault) in wrong {
            assert_eq!(node(text).unwrap_err().to_string(), fault);
        }
    }
}
