//! Nodes of which no two are the same, so that identical subformulas are one node.

use crate::node::Node;
use std::collections::HashMap;

/// What is wrong if a node gets no place.
pub const TOO_MANY: &str = "a book counts at most 65535 nodes";

/// Distinct nodes in the order they were first wanted.
#[derive(Clone, Debug, Default)]
pub struct Sharing {
    nodes: Vec<Node>,
    places: HashMap<Node, u16>,
}

impl Sharing {
    /// The place of a node, which is added if it is new; `None` if a book cannot count it.
    pub fn place(&mut self, node: Node) -> Option<u16> {
        if let Some(&place) = self.places.get(&node) {
            return Some(place);
        }
        let place = u16::try_from(self.nodes.len()).ok().filter(|&place| place < u16::MAX)?;
        self.nodes.push(node);
        self.places.insert(node, place);
        Some(place)
    }

    /// The nodes by place.
    #[must_use]
    pub fn into_nodes(self) -> Vec<Node> {
        self.nodes
    }
}

#[cfg(test)]
mod tests {
    use super::*;

    #[test]
    fn one_place_for_the_same_node() {
        let mut sharing = Sharing::default();
        let node = |first| Node { kind: 1, first, ..Node::default() };
        assert_eq!(
            [node(4), node(5), node(4)].map(|node| sharing.place(node)),
            [0, 1, 0].map(Some)
        );
        assert_eq!(sharing.into_nodes(), [node(4), node(5)]);
    }

    #[test]
    fn at_most_what_a_book_counts() {
        let mut sharing = Sharing::default();
        for first in 0..u16::MAX {
            assert_eq!(sharing.place(Node { first, ..Node::default() }), Some(first));
        }
        assert_eq!(sharing.place(Node { first: u16::MAX, ..Node::default() }), None);
        assert_eq!(sharing.place(Node::default()), Some(0));
    }
}
