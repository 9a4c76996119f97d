//! Damage to a book's bytes, and books at and past each bound of the header (01, "The rulebook"
//! and the refusals 11 to 14).

use super::{Draft, Rng};
use crate::book::{encode, Node, ATOMS, HEADER, NODES, OFFSET, RECORD, RELATIONS};

/// Bytes with a word on what was done to them. They may still be a good book.
#[derive(Clone, Debug)]
pub struct Damaged {
    pub label: String,
    pub bytes: Vec<u8>,
}

impl Damaged {
    fn new(label: String, bytes: Vec<u8>) -> Damaged {
        Damaged { label, bytes }
    }
}

/// Flips `times` random bits.
pub fn flip_bits(rng: &mut Rng, bytes: &[u8], times: usize) -> Vec<u8> {
    let mut flipped = bytes.to_vec();
    for _ in 0..times {
        let at = rng.below(bytes.len());
        if let Some(byte) = flipped.get_mut(at) {
            *byte ^= 1 << rng.below(8);
        }
    }
    flipped
}

/// Cuts the bytes at a random place.
pub fn truncate(rng: &mut Rng, bytes: &[u8]) -> Vec<u8> {
    bytes[..rng.below(bytes.len())].to_vec()
}

/// Adds up to `most` random bytes, at least one.
pub fn extend(rng: &mut Rng, bytes: &[u8], most: usize) -> Vec<u8> {
    let more = rng.between(1, most.max(1));
    bytes.iter().copied().chain((0..more).map(|_| rng.draw() as u8)).collect()
}

fn put<const SIZE: usize>(bytes: &mut [u8], at: usize, number: [u8; SIZE]) {
    if let Some(field) = bytes.get_mut(at..at + SIZE) {
        field.copy_from_slice(&number);
    }
}

fn short_at(bytes: &[u8], at: usize) -> u16 {
    bytes.get(at..at + 2).map_or(0, |field| u16::from_le_bytes([field[0], field[1]]))
}

fn long_at(bytes: &[u8], at: usize) -> u32 {
    u32::from(short_at(bytes, at)) | u32::from(short_at(bytes, at + 2)) << 16
}

/// A copy with a 2-byte field changed.
fn with_short(bytes: &[u8], at: usize, number: u16, field: &str) -> Damaged {
    let mut changed = bytes.to_vec();
    put(&mut changed, at, number.to_le_bytes());
    Damaged::new(format!("{field} {number}"), changed)
}

/// A copy with offset and total changed.
fn with_lengths(bytes: &[u8], offset: u32, total: u32) -> Damaged {
    let mut changed = bytes.to_vec();
    put(&mut changed, 8, offset.to_le_bytes());
    put(&mut changed, 12, total.to_le_bytes());
    Damaged::new(format!("offset {offset} total {total}"), changed)
}

/// Each header field of a book set to its bounds and past them, the rest left as it is; totals
/// that are off by one or near 2^32; slices a byte shorter and longer.
pub fn header_damage(bytes: &[u8]) -> Vec<Damaged> {
    let mut all = range_damage(bytes);
    all.extend(length_damage(bytes));
    let shorter = bytes[..bytes.len().saturating_sub(1)].to_vec();
    all.push(Damaged::new("slice one shorter".into(), shorter));
    all.push(Damaged::new("slice one longer".into(), [bytes, &[0]].concat()));
    all
}

/// R, P, N and root.
fn range_damage(bytes: &[u8]) -> Vec<Damaged> {
    let nodes = short_at(bytes, 4);
    let (fewer, more) = (nodes.wrapping_sub(1), nodes.wrapping_add(1));
    let fields = [
        ("R", vec![0, 1, RELATIONS, RELATIONS + 1, u16::MAX]),
        ("P", vec![0, 1, ATOMS, ATOMS + 1, u16::MAX]),
        ("N", vec![0, 1, fewer, more, NODES, NODES + 1, u16::MAX]),
        ("root", vec![0, fewer, nodes, u16::MAX]),
    ];
    let mut all = Vec::new();
    for (place, (field, numbers)) in fields.into_iter().enumerate() {
        let change = |number| with_short(bytes, 2 * place, number, field);
        all.extend(numbers.into_iter().map(change));
    }
    all
}

/// Offset and total: one of them wrong, both wrong but agreeing, and sums that wrap.
fn length_damage(bytes: &[u8]) -> Vec<Damaged> {
    let (offset, total) = (long_at(bytes, 8), long_at(bytes, 12));
    let records = RECORD as u32 * u32::from(short_at(bytes, 4));
    let mut all = Vec::new();
    for wrong in [0, 15, 16, 17, OFFSET, OFFSET + 1, offset ^ 0x1_0000, u32::MAX] {
        all.push(with_lengths(bytes, wrong, total));
        all.push(with_lengths(bytes, wrong, wrong.wrapping_add(records)));
    }
    for wrong in [0, total.wrapping_sub(1), total.wrapping_add(1), total ^ 0x1_0000, u32::MAX] {
        all.push(with_lengths(bytes, offset, wrong));
    }
    for wrapped in [0, 16, total.wrapping_sub(1), total, u32::MAX] {
        all.push(with_lengths(bytes, wrapped.wrapping_sub(records), wrapped));
    }
    all
}

/// The book with its records at the offsets 15 (the last header byte being their first), 16, 17,
/// 4,095, 4,096 and 4,097, total and slice agreeing.
pub fn offset_books(draft: &Draft) -> Vec<Damaged> {
    let at = |offset: u32| {
        let note = vec![0xA5; offset as usize - HEADER];
        Damaged::new(format!("records at {offset}"), draft.bytes(&note))
    };
    let mut all = Vec::from([HEADER as u32, 17, OFFSET - 1, OFFSET, OFFSET + 1].map(at));
    let mut early = draft.bytes(&[]);
    early.pop();
    let total = early.len() as u32;
    let mut early = with_lengths(&early, HEADER as u32 - 1, total);
    early.label = "records at 15".into();
    all.push(early);
    all
}

/// Whole books with R, P, N and root at and past their bounds, everything else agreeing.
pub fn size_books() -> Vec<Damaged> {
    let chain = |nodes: u16| -> Vec<Node> {
        (0..nodes).map(|own| own.checked_sub(1).map_or(Node::Atom(0), Node::Not)).collect()
    };
    let mut all = Vec::new();
    for nodes in [0, 1, NODES - 1, NODES, NODES + 1] {
        for root in [0, nodes.saturating_sub(1), nodes] {
            let bytes = encode(1, 1, &chain(nodes), root, &[]);
            all.push(Damaged::new(format!("N {nodes} root {root}"), bytes));
        }
    }
    for relations in [0, 1, RELATIONS, RELATIONS + 1] {
        let relation = relations.saturating_sub(1);
        let nodes = [Node::Atom(0), Node::Diamond { child: 0, relation }];
        let bytes = encode(relations, 1, &nodes, 1, &[]);
        all.push(Damaged::new(format!("R {relations}, the last one used"), bytes));
    }
    for atoms in [0, 1, ATOMS, ATOMS + 1] {
        let nodes = [Node::Atom(atoms.saturating_sub(1))];
        let bytes = encode(1, atoms, &nodes, 0, &[]);
        all.push(Damaged::new(format!("P {atoms}, the last one used"), bytes));
    }
    all
}

/// One node's record with each field in turn at and past its bounds: kinds beside 1 to 7, each
/// other kind, a child at or above the node's own index, atom P, relation R, unused fields set.
pub fn record_damage(bytes: &[u8], node: u16) -> Vec<Damaged> {
    let (relations, atoms) = (short_at(bytes, 0), short_at(bytes, 2));
    let at = (long_at(bytes, 8) as usize).saturating_add(RECORD * usize::from(node));
    if bytes.get(at..).is_none_or(|rest| rest.len() < RECORD) {
        return Vec::new();
    }
    let above = node.wrapping_add(1);
    let fields = [
        ("kind", vec![0, 1, 2, 3, 4, 5, 6, 7, 8, 256, u16::MAX]),
        (
            "first",
            vec![0, node.wrapping_sub(1), node, above, atoms.wrapping_sub(1), atoms, u16::MAX],
        ),
        ("second", vec![0, 1, node.wrapping_sub(1), node, above, 256, u16::MAX]),
        ("relation", vec![0, 1, relations.wrapping_sub(1), relations, 256, u16::MAX]),
    ];
    let mut all = Vec::new();
    for (place, (field, numbers)) in fields.into_iter().enumerate() {
        let label = format!("node {node} {field}");
        let change = |number| with_short(bytes, at + 2 * place, number, &label);
        all.extend(numbers.into_iter().map(change));
    }
    all
}
