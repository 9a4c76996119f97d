//! 01, "The rulebook": a book's bytes, the refusals 11 to 14, and the way back to bytes.

/// Bytes of the header.
pub const HEADER: usize = 16;
/// Bytes of one node record.
pub const RECORD: usize = 8;
/// Most relations R.
pub const RELATIONS: u16 = 16;
/// Most atoms P.
pub const ATOMS: u16 = 256;
/// Most nodes N.
pub const NODES: u16 = 512;
/// Highest offset of the first node record.
pub const OFFSET: u32 = 4096;

/// A node record that keeps every rule. Children are indices below the node's own.
#[derive(Clone, Copy, Debug, PartialEq, Eq)]
pub enum Node {
    Atom(u16),
    Not(u16),
    And(u16, u16),
    Or(u16, u16),
    Implies(u16, u16),
    Box { child: u16, relation: u16 },
    Diamond { child: u16, relation: u16 },
}

impl Node {
    /// The four numbers of the record: kind, first, second, relation.
    pub fn record(self) -> [u16; 4] {
        match self {
            Node::Atom(atom) => [1, atom, 0, 0],
            Node::Not(child) => [2, child, 0, 0],
            Node::And(first, second) => [3, first, second, 0],
            Node::Or(first, second) => [4, first, second, 0],
            Node::Implies(first, second) => [5, first, second, 0],
            Node::Box { child, relation } => [6, child, 0, relation],
            Node::Diamond { child, relation } => [7, child, 0, relation],
        }
    }

    /// Reads the record of the node with index `own`; nothing if it breaks a rule.
    fn read(record: [u16; 4], own: u16, relations: u16, atoms: u16) -> Option<Node> {
        match record {
            [1, atom, 0, 0] if atom < atoms => Some(Node::Atom(atom)),
            [2, child, 0, 0] if child < own => Some(Node::Not(child)),
            [kind @ 3..=5, first, second, 0] if first < own && second < own => Some(match kind {
                3 => Node::And(first, second),
                4 => Node::Or(first, second),
                _ => Node::Implies(first, second),
            }),
            [kind @ 6..=7, child, 0, relation] if child < own && relation < relations => {
                Some(match kind {
                    6 => Node::Box { child, relation },
                    _ => Node::Diamond { child, relation },
                })
            }
            _ => None,
        }
    }
}

/// Why a book's bytes are refused.
#[derive(Clone, Copy, Debug, PartialEq, Eq)]
pub enum Refusal {
    /// 11: fewer than 16 bytes.
    Short,
    /// 12: R, P, N or root outside its range.
    Range,
    /// 13: offset or total wrong.
    Length,
    /// 14: a node record breaks a rule; this is the lowest.
    Node(u16),
}

impl Refusal {
    /// The answer's number.
    pub fn number(self) -> u16 {
        match self {
            Refusal::Short => 11,
            Refusal::Range => 12,
            Refusal::Length => 13,
            Refusal::Node(_) => 14,
        }
    }

    /// The answer's place: the lowest bad node, counted from 0, and otherwise 0.
    pub fn place(self) -> u16 {
        match self {
            Refusal::Node(place) => place,
            _ => 0,
        }
    }
}

/// A book that none of 11 to 14 refuses. Only [`parse`] makes one, so its rules always hold.
#[derive(Clone, Debug, PartialEq, Eq)]
pub struct Book {
    relations: u16,
    atoms: u16,
    nodes: Vec<Node>,
    root: u16,
}

impl Book {
    /// R, 1 to 16.
    pub fn relations(&self) -> u16 {
        self.relations
    }

    /// P, 1 to 256.
    pub fn atoms(&self) -> u16 {
        self.atoms
    }

    /// The nodes, 1 to 512, each over nodes before it.
    pub fn nodes(&self) -> &[Node] {
        &self.nodes
    }

    /// The root's index, below the number of nodes.
    pub fn root(&self) -> u16 {
        self.root
    }
}

/// The header's six fields as they stand.
struct Header {
    relations: u16,
    atoms: u16,
    nodes: u16,
    root: u16,
    offset: u32,
    total: u32,
}

impl Header {
    fn read(bytes: &[u8]) -> Option<Header> {
        let head: &[u8; HEADER] = bytes.first_chunk()?;
        let short = |at: usize| u16::from_le_bytes([head[at], head[at + 1]]);
        let long =
            |at: usize| u32::from_le_bytes([head[at], head[at + 1], head[at + 2], head[at + 3]]);
        Some(Header {
            relations: short(0),
            atoms: short(2),
            nodes: short(4),
            root: short(6),
            offset: long(8),
            total: long(12),
        })
    }

    fn in_range(&self) -> bool {
        (1..=RELATIONS).contains(&self.relations)
            && (1..=ATOMS).contains(&self.atoms)
            && (1..=NODES).contains(&self.nodes)
            && self.root < self.nodes
    }

    /// The bytes of the node records. The offset's range comes first, so the sum can't wrap.
    fn records<'a>(&self, bytes: &'a [u8]) -> Option<&'a [u8]> {
        if !(HEADER as u32..=OFFSET).contains(&self.offset) {
            return None;
        }
        let length = self.offset + RECORD as u32 * u32::from(self.nodes);
        if self.total != length || bytes.len() != length as usize {
            return None;
        }
        bytes.get(self.offset as usize..)
    }
}

/// Reads a book, or says why it is refused (the lowest of 11 to 14 that applies).
pub fn parse(bytes: &[u8]) -> Result<Book, Refusal> {
    let header = Header::read(bytes).ok_or(Refusal::Short)?;
    if !header.in_range() {
        return Err(Refusal::Range);
    }
    let records = header.records(bytes).ok_or(Refusal::Length)?;
    let nodes = (0..)
        .zip(records.as_chunks::<RECORD>().0)
        .map(|(own, &[k0, k1, f0, f1, s0, s1, r0, r1])| {
            let record = [[k0, k1], [f0, f1], [s0, s1], [r0, r1]].map(u16::from_le_bytes);
            Node::read(record, own, header.relations, header.atoms).ok_or(Refusal::Node(own))
        })
        .collect::<Result<Vec<_>, _>>()?;
    Ok(Book { relations: header.relations, atoms: header.atoms, nodes, root: header.root })
}

/// The bytes of a book with the note between header and records. Nothing is checked: numbers that
/// break a rule are written as they are, and counts too large for their field are cut.
pub fn encode(relations: u16, atoms: u16, nodes: &[Node], root: u16, note: &[u8]) -> Vec<u8> {
    let offset = HEADER + note.len();
    let total = offset + RECORD * nodes.len();
    let mut bytes = Vec::with_capacity(total);
    for number in [relations, atoms, nodes.len() as u16, root] {
        bytes.extend(number.to_le_bytes());
    }
    for number in [offset as u32, total as u32] {
        bytes.extend(number.to_le_bytes());
    }
    bytes.extend(note);
    bytes.extend(nodes.iter().flat_map(|node| node.record()).flat_map(u16::to_le_bytes));
    bytes
}

#[cfg(test)]
mod tests {
    use super::*;

    #[test]
    fn encode_then_parse_gives_the_same_book() {
        let nodes =
            [Node::Atom(1), Node::Not(0), Node::Implies(0, 1), Node::Box { child: 2, relation: 3 }];
        let book = parse(&encode(4, 2, &nodes, 2, b"note")).expect("a good book");
        assert_eq!((book.relations(), book.atoms(), book.root()), (4, 2, 2));
        assert_eq!(book.nodes(), nodes);
    }

    #[test]
    fn the_lowest_bad_node_is_the_place() {
        let nodes = [Node::Atom(0), Node::Not(1), Node::Atom(7)];
        assert_eq!(parse(&encode(1, 1, &nodes, 0, &[])), Err(Refusal::Node(1)));
    }
}
