//! Formulas in words: `not`, `and`, `or`, `implies`, `after every R:`, `after some R:`.
//!
//! `not` and `after` bind most, then `and`, `or`, `implies`. `and` and `or` nest from the left,
//! `implies` from the right. What waits for its right side stands on a stack of its own, so that
//! deep nesting costs no call depth.

use crate::fault::Fault;
use crate::names::{is_name, Declared};
use crate::node::{Node, AND, ATOM, BOX, DIAMOND, IMPLIES, NOT, OR};
use crate::sharing::{Sharing, TOO_MANY};
use crate::words::{Word, Words};

/// Something that waits for the formula to its right.
enum Waiting {
    /// A parenthesis, and its line.
    Open(usize),
    /// A `not` or an `after`.
    Prefix { kind: u16, relation: u16 },
    /// An `and`, `or` or `implies` with its left side.
    Pair { kind: u16, first: u16 },
}

/// How strongly the words bind.
const OPEN: u8 = 0;
const IMPLIES_BINDS: u8 = 1;
const OR_BINDS: u8 = 2;
const AND_BINDS: u8 = 3;
const PREFIX_BINDS: u8 = 4;

impl Waiting {
    fn binds(&self) -> u8 {
        match self {
            Waiting::Open(_) => OPEN,
            Waiting::Pair { kind: IMPLIES, .. } => IMPLIES_BINDS,
            Waiting::Pair { kind: OR, .. } => OR_BINDS,
            Waiting::Pair { .. } => AND_BINDS,
            Waiting::Prefix { .. } => PREFIX_BINDS,
        }
    }
}

/// Reads a formula to the end of its statement and gives the place of its node.
///
/// # Errors
/// If the words are no formula, or name something that is not declared.
pub fn read(words: &mut Words<'_>, declared: &Declared, nodes: &mut Sharing) -> Result<u16, Fault> {
    let mut reader = Reader { words, declared, nodes, waiting: Vec::new() };
    loop {
        let left = reader.operand()?;
        if let Some(whole) = reader.operator(left)? {
            return Ok(whole);
        }
    }
}

struct Reader<'r, 'a> {
    words: &'r mut Words<'a>,
    declared: &'r Declared,
    nodes: &'r mut Sharing,
    waiting: Vec<Waiting>,
}

impl Reader<'_, '_> {
    /// Reads prefixes and parentheses up to an atom, and gives the atom's place.
    fn operand(&mut self) -> Result<u16, Fault> {
        loop {
            let word = self.words.word("a formula")?;
            let waiting = match word.text {
                "(" => Waiting::Open(word.line),
                "not" => Waiting::Prefix { kind: NOT, relation: 0 },
                "after" => self.after()?,
                _ => return self.atom(word),
            };
            self.waiting.push(waiting);
        }
    }

    /// Reads the rest of `after every R:` or `after some R:`.
    fn after(&mut self) -> Result<Waiting, Fault> {
        let word = self.words.word("`every` or `some`")?;
        let kind = match word.text {
            "every" => BOX,
            "some" => DIAMOND,
            text => {
                return Err(word.fault(format!("`{text}` stands where `every` or `some` should")))
            }
        };
        let name = self.words.word("a relation")?;
        let relation = self.declared.relations.number(name.text);
        let relation = relation
            .ok_or_else(|| name.fault(format!("no relation `{}` is declared", name.text)))?;
        self.words.expect(":")?;
        Ok(Waiting::Prefix { kind, relation })
    }

    fn atom(&mut self, word: Word<'_>) -> Result<u16, Fault> {
        let Word { text, .. } = word;
        if !is_name(text) {
            return Err(word.fault(format!("`{text}` stands where a formula should")));
        }
        let atom = self.declared.atoms.number(text);
        let first = atom.ok_or_else(|| word.fault(format!("no atom `{text}` is declared")))?;
        self.place(Node { kind: ATOM, first, ..Node::default() })
    }

    /// Reads what may follow a formula: an operator, which then waits, or the end, which gives the
    /// whole; closing parentheses before it.
    fn operator(&mut self, mut left: u16) -> Result<Option<u16>, Fault> {
        loop {
            let Some(word) = self.words.next() else {
                return self.whole(left).map(Some);
            };
            let (kind, binds) = match word.text {
                "and" => (AND, AND_BINDS),
                "or" => (OR, OR_BINDS),
                // One more, so that an `implies` to the left goes on waiting.
                "implies" => (IMPLIES, IMPLIES_BINDS + 1),
                ")" => {
                    left = self.close(word, left)?;
                    continue;
                }
                text => {
                    let what = format!("`{text}` stands where `and`, `or` or `implies` should");
                    return Err(word.fault(what));
                }
            };
            let first = self.join(binds, left)?;
            self.waiting.push(Waiting::Pair { kind, first });
            return Ok(None);
        }
    }

    fn close(&mut self, word: Word<'_>, left: u16) -> Result<u16, Fault> {
        let inner = self.join(OPEN + 1, left)?;
        match self.waiting.pop() {
            Some(_) => Ok(inner),
            None => Err(word.fault("`)` closes nothing")),
        }
    }

    fn whole(&mut self, left: u16) -> Result<u16, Fault> {
        let whole = self.join(OPEN + 1, left)?;
        match self.waiting.last() {
            Some(Waiting::Open(line)) => Err(Fault::new(*line, "`(` is not closed")),
            _ => Ok(whole),
        }
    }

    /// Gives the formula to all that waits and binds at least so strongly.
    fn join(&mut self, binds: u8, mut formula: u16) -> Result<u16, Fault> {
        while let Some(waiting) = self.waiting.pop_if(|waiting| waiting.binds() >= binds) {
            formula = match waiting {
                Waiting::Open(_) => formula,
                Waiting::Prefix { kind, relation } => {
                    self.place(Node { kind, first: formula, second: 0, relation })?
                }
                Waiting::Pair { kind, first } => {
                    self.place(Node { kind, first, second: formula, relation: 0 })?
                }
            };
        }
        Ok(formula)
    }

    fn place(&mut self, node: Node) -> Result<u16, Fault> {
        let place = self.nodes.place(node);
        place.ok_or_else(|| Fault::new(self.words.line, TOO_MANY))
    }
}

#[cfg(test)]
mod tests {
    use super::*;
    use crate::record::show;
    use crate::words::statements;

    fn parsed(text: &str) -> Result<Vec<String>, Fault> {
        let mut declared = Declared::default();
        declared.relations.declare(&mut statements("r s").unwrap()[0])?;
        declared.atoms.declare(&mut statements("a b c").unwrap()[0])?;
        let mut nodes = Sharing::default();
        let root = read(&mut statements(text).unwrap()[0], &declared, &mut nodes)?;
        let nodes = nodes.into_nodes();
        assert_eq!(usize::from(root) + 1, nodes.len());
        Ok(nodes.into_iter().map(show).collect())
    }

    fn same(short: &str, full: &str) {
        assert_eq!(parsed(short).unwrap(), parsed(full).unwrap(), "{short}");
    }

    #[test]
    fn children_first_and_shared() {
        let nodes = parsed("after some r: a and after every s: not a").unwrap();
        assert_eq!(nodes, ["atom 0", "diamond 0 by 0", "not 0", "box 2 by 1", "and 1 3"]);
        assert_eq!(parsed("(a or b) and (a or b)").unwrap().len(), 4);
    }

    #[test]
    fn what_binds_more() {
        same("a or b and c", "a or (b and c)");
        same("a and b or c", "(a and b) or c");
        same("a or b implies b or c", "(a or b) implies (b or c)");
        same("not a and b", "(not a) and b");
        same("after every r: a implies b", "(after every r: a) implies b");
        same("not after some r: not a or b", "(not (after some r: (not a))) or b");
    }

    #[test]
    fn which_side_nests() {
        same("a and b and c", "(a and b) and c");
        same("a or b or c", "(a or b) or c");
        same("a implies b implies c", "a implies (b implies c)");
        same("a implies b and c implies a or b", "a implies ((b and c) implies (a or b))");
        same("((a)) and (b)", "a and b");
    }

    #[test]
    fn deep_nesting() {
        let deep = 100_000;
        let text = "(".repeat(deep) + "a" + &")".repeat(deep);
        assert_eq!(parsed(&text).unwrap(), ["atom 0"]);
        let fault = parsed(&("not ".repeat(deep) + "a")).unwrap_err();
        assert_eq!(fault.to_string(), "line 1: a book counts at most 65535 nodes");
    }

    #[test]
    fn faults() {
        let wrong = [
            ("a and", "line 1: a formula is missing at the end"),
            ("a b", "line 1: `b` stands where `and`, `or` or `implies` should"),
            ("a and\n d", "line 2: no atom `d` is declared"),
            ("a and or b", "line 1: `or` stands where a formula should"),
            ("after r: a", "line 1: `r` stands where `every` or `some` should"),
            ("after every a: a", "line 1: no relation `a` is declared"),
            ("after every r a", "line 1: `a` stands where `:` should"),
            ("(a\n and (b)", "line 1: `(` is not closed"),
            ("a and b)", "line 1: `)` closes nothing"),
            ("()", "line 1: `)` stands where a formula should"),
        ];
        for (text, fault) in wrong {
            assert_eq!(parsed(text).unwrap_err().to_string(), fault);
        }
    }
}
