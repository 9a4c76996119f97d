//! 000, section 2: truth of a book's nodes in a Kripke structure. Each node is evaluated once at
//! each state, children first, so that shared nodes don't double the work.

use crate::book::{Book, Node};
use crate::build::{class, Class};
use crate::structure::Kripke;

/// The truth of each node at each state.
#[derive(Clone, Debug, PartialEq, Eq)]
pub struct Table {
    states: usize,
    cells: Vec<bool>,
}

impl Table {
    /// Whether the node holds at the state; false outside the table.
    pub fn holds(&self, node: u16, state: usize) -> bool {
        state < self.states
            && self.cells.get(usize::from(node) * self.states + state).is_some_and(|cell| *cell)
    }
}

/// Truth by the meaning of each connective (the language and abbreviations of 000).
pub fn evaluate(book: &Book, kripke: &Kripke) -> Table {
    let states = kripke.states();
    let cells = Vec::with_capacity(states * book.nodes().len());
    let mut table = Table { states, cells };
    for &node in book.nodes() {
        for state in 0..states {
            let value = node_holds(&table, kripke, node, state);
            table.cells.push(value);
        }
    }
    table
}

fn node_holds(table: &Table, kripke: &Kripke, node: Node, state: usize) -> bool {
    let here = |child| table.holds(child, state);
    match node {
        Node::Atom(atom) => kripke.is_true(atom, state),
        Node::Not(child) => !here(child),
        Node::And(first, second) => here(first) && here(second),
        Node::Or(first, second) => here(first) || here(second),
        Node::Implies(first, second) => !here(first) || here(second),
        Node::Box { child, relation } => {
            kripke.successors(state, relation).all(|next| table.holds(child, next))
        }
        Node::Diamond { child, relation } => {
            kripke.successors(state, relation).any(|next| table.holds(child, next))
        }
    }
}

/// Whether the book's root holds at a state.
pub fn root_holds(book: &Book, kripke: &Kripke, state: usize) -> bool {
    evaluate(book, kripke).holds(book.root(), state)
}

/// Truth of signed formulas by the letter of 000's definition over the four classes: the cell of
/// 2 × node (+1 for a minus sign) at each state.
pub fn evaluate_by_classes(book: &Book, kripke: &Kripke) -> Table {
    let states = kripke.states();
    let cells = Vec::with_capacity(2 * states * book.nodes().len());
    let mut table = Table { states, cells };
    for &node in book.nodes() {
        for minus in [false, true] {
            for state in 0..states {
                let value = signed_holds(&table, kripke, node, minus, state);
                table.cells.push(value);
            }
        }
    }
    table
}

fn signed_holds(table: &Table, kripke: &Kripke, node: Node, minus: bool, state: usize) -> bool {
    let at = |part, minus, state| table.holds(2 * part + u16::from(minus), state);
    match (class(node, minus), node) {
        (Class::Conjunctive(a, b), _) => at(a.node, a.minus, state) && at(b.node, b.minus, state),
        (Class::Disjunctive(a, b), _) => at(a.node, a.minus, state) || at(b.node, b.minus, state),
        (Class::Existential(relation, part), _) => {
            kripke.successors(state, relation).any(|next| at(part.node, part.minus, next))
        }
        (Class::Universal(relation, part), _) => {
            kripke.successors(state, relation).all(|next| at(part.node, part.minus, next))
        }
        (Class::None, Node::Not(child)) => at(child, !minus, state),
        (Class::None, Node::Atom(atom)) => kripke.is_true(atom, state) != minus,
        (Class::None, _) => false,
    }
}
