//! A book in the making.

use crate::book::{encode, parse, Book, Node, Refusal, NODES};

/// R, P, nodes and root of a book in the making. The last node added is the root.
#[derive(Clone, Debug, PartialEq, Eq)]
pub struct Draft {
    pub relations: u16,
    pub atoms: u16,
    pub nodes: Vec<Node>,
    pub root: u16,
}

impl Draft {
    pub fn new(relations: u16, atoms: u16) -> Draft {
        Draft { relations, atoms, nodes: Vec::new(), root: 0 }
    }

    /// Nodes that can still be added.
    pub fn room(&self) -> usize {
        usize::from(NODES).saturating_sub(self.nodes.len())
    }

    /// Adds a node and gives its index. In a full book it adds none and gives the last one's.
    pub fn add(&mut self, node: Node) -> u16 {
        if self.room() > 0 {
            self.nodes.push(node);
        }
        self.root = (self.nodes.len() - 1) as u16;
        self.root
    }

    pub fn atom(&mut self, atom: u16) -> u16 {
        self.add(Node::Atom(atom))
    }

    pub fn not(&mut self, child: u16) -> u16 {
        self.add(Node::Not(child))
    }

    pub fn and(&mut self, first: u16, second: u16) -> u16 {
        self.add(Node::And(first, second))
    }

    pub fn or(&mut self, first: u16, second: u16) -> u16 {
        self.add(Node::Or(first, second))
    }

    pub fn implies(&mut self, first: u16, second: u16) -> u16 {
        self.add(Node::Implies(first, second))
    }

    pub fn necessarily(&mut self, child: u16, relation: u16) -> u16 {
        self.add(Node::Box { child, relation })
    }

    pub fn possibly(&mut self, child: u16, relation: u16) -> u16 {
        self.add(Node::Diamond { child, relation })
    }

    /// The items in one chain of "and" nodes from the left; the first alone if there is one only.
    pub fn all_of(&mut self, items: &[u16]) -> u16 {
        self.chain(items, Node::And)
    }

    /// The items in one chain of "or" nodes.
    pub fn any_of(&mut self, items: &[u16]) -> u16 {
        self.chain(items, Node::Or)
    }

    fn chain(&mut self, items: &[u16], link: fn(u16, u16) -> Node) -> u16 {
        let mut items = items.iter().copied();
        let first = items.next().unwrap_or(self.root);
        self.root = first;
        items.fold(first, |before, item| self.add(link(before, item)))
    }

    /// The book's bytes with a note.
    pub fn bytes(&self, note: &[u8]) -> Vec<u8> {
        encode(self.relations, self.atoms, &self.nodes, self.root, note)
    }

    /// The book itself.
    pub fn book(&self) -> Result<Book, Refusal> {
        parse(&self.bytes(&[]))
    }
}
