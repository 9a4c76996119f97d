//! Books of varied shapes. Every one of them keeps the rules of 01, "The rulebook".

use super::{Draft, Rng};
use crate::book::{Node, ATOMS, HEADER, OFFSET, RELATIONS};

/// The shapes of [`book`].
#[derive(Clone, Copy, Debug, PartialEq, Eq)]
pub enum Shape {
    /// Up to a dozen nodes of all kinds.
    Small,
    /// Up to 80 nodes of all kinds.
    Medium,
    /// 200 to 512 nodes of all kinds.
    Large,
    /// Long modal nesting.
    Deep,
    /// One long row of modal and propositional items.
    Wide,
    /// Each node over the few before it, often over one of them twice.
    Shared,
    /// Modal nodes over up to 16 relations.
    Relations,
    /// Few atoms with many nodes each.
    RepeatedAtoms,
    /// Long chains of "not" between the other nodes.
    NotChains,
    /// A 3-CNF near its threshold.
    Cnf,
    /// A CNF of literals and modal items over smaller ones.
    ModalCnf,
    /// More pigeons than holes, or as many.
    Pigeons,
    /// Universals over a fan of successors.
    Fan,
}

/// All shapes.
pub const SHAPES: [Shape; 13] = [
    Shape::Small,
    Shape::Medium,
    Shape::Large,
    Shape::Deep,
    Shape::Wide,
    Shape::Shared,
    Shape::Relations,
    Shape::RepeatedAtoms,
    Shape::NotChains,
    Shape::Cnf,
    Shape::ModalCnf,
    Shape::Pigeons,
    Shape::Fan,
];

/// A random book of the shape.
pub fn book(shape: Shape, rng: &mut Rng) -> Draft {
    match shape {
        Shape::Small => small(rng),
        Shape::Medium => medium(rng),
        Shape::Large => large(rng),
        Shape::Deep => deep(rng),
        Shape::Wide => wide(rng),
        Shape::Shared => shared(rng),
        Shape::Relations => many_relations(rng),
        Shape::RepeatedAtoms => repeated_atoms(rng),
        Shape::NotChains => not_chains(rng),
        Shape::Cnf => cnf(rng),
        Shape::ModalCnf => modal_cnf(rng),
        Shape::Pigeons => pigeons(rng),
        Shape::Fan => fan(rng),
    }
}

/// A random book of any shape.
pub fn any_book(rng: &mut Rng) -> Draft {
    let shape = SHAPES[rng.below(SHAPES.len())];
    book(shape, rng)
}

/// A random note: none, short, of any length, or the longest.
pub fn note(rng: &mut Rng) -> Vec<u8> {
    let longest = OFFSET as usize - HEADER;
    let length = match rng.below(4) {
        0 => 0,
        1 => rng.between(1, 16),
        2 => rng.between(0, longest),
        _ => longest - rng.below(3),
    };
    (0..length).map(|_| rng.draw() as u8).collect()
}

fn small(rng: &mut Rng) -> Draft {
    let sizes = (rng.between(1, 2), rng.between(1, 3), rng.between(1, 12));
    mixed(rng, sizes, [3, 2, 2, 2, 2, 2, 2], 12)
}

fn medium(rng: &mut Rng) -> Draft {
    let sizes = (rng.between(1, 3), rng.between(1, 6), rng.between(13, 80));
    let reach = rng.between(2, 40);
    mixed(rng, sizes, [3, 2, 4, 3, 2, 2, 2], reach)
}

fn large(rng: &mut Rng) -> Draft {
    let sizes = (rng.between(1, 16), rng.between(1, 256), rng.between(200, 512));
    let (boxes, reach) = (rng.below(4), rng.between(4, 300));
    mixed(rng, sizes, [4, 2, 6, 4, 3, boxes, 2], reach)
}

fn many_relations(rng: &mut Rng) -> Draft {
    let sizes = (usize::from(RELATIONS), rng.between(1, 4), rng.between(10, 120));
    mixed(rng, sizes, [2, 1, 4, 2, 1, 4, 4], 25)
}

fn repeated_atoms(rng: &mut Rng) -> Draft {
    let sizes = (rng.between(1, 2), rng.between(1, 2), rng.between(10, 100));
    mixed(rng, sizes, [8, 2, 3, 3, 2, 1, 1], 40)
}

fn not_chains(rng: &mut Rng) -> Draft {
    let sizes = (rng.between(1, 2), rng.between(1, 4), rng.between(10, 400));
    mixed(rng, sizes, [1, 20, 2, 2, 2, 1, 1], 3)
}

/// A child among the last `reach` nodes.
fn child(rng: &mut Rng, draft: &Draft, reach: usize) -> u16 {
    let nodes = draft.nodes.len();
    (nodes - 1 - rng.below(nodes.min(reach.max(1)))) as u16
}

fn relation(rng: &mut Rng, draft: &Draft) -> u16 {
    rng.below(usize::from(draft.relations)) as u16
}

fn atom(rng: &mut Rng, draft: &Draft) -> Node {
    Node::Atom(rng.below(usize::from(draft.atoms)) as u16)
}

/// A random node by weights for the kinds 1 to 7.
fn node(rng: &mut Rng, draft: &Draft, weights: &[usize; 7], reach: usize) -> Node {
    if draft.nodes.is_empty() {
        return atom(rng, draft);
    }
    let pick = |rng: &mut Rng| child(rng, draft, reach);
    match rng.weighted(weights) {
        0 => atom(rng, draft),
        1 => Node::Not(pick(rng)),
        2 => Node::And(pick(rng), pick(rng)),
        3 => Node::Or(pick(rng), pick(rng)),
        4 => Node::Implies(pick(rng), pick(rng)),
        5 => Node::Box { child: pick(rng), relation: relation(rng, draft) },
        _ => Node::Diamond { child: pick(rng), relation: relation(rng, draft) },
    }
}

/// Nodes of all kinds; sizes are relations, atoms and nodes. The last nodes mostly join those
/// that have no parent yet, so that the root reaches much. Now and then the root is any node.
fn mixed(
    rng: &mut Rng,
    (relations, atoms, nodes): (usize, usize, usize),
    weights: [usize; 7],
    reach: usize,
) -> Draft {
    let mut draft = Draft::new(relations as u16, atoms as u16);
    let joints = if rng.chance(3, 4) { rng.below(nodes / 3 + 1) } else { 0 };
    for _ in 0..nodes - joints {
        let node = node(rng, &draft, &weights, reach);
        draft.add(node);
    }
    let mut loose = parentless(&draft);
    let mut root = loose.pop().unwrap_or(draft.root);
    for _ in 0..joints {
        let other = loose.pop().unwrap_or_else(|| child(rng, &draft, nodes));
        root = match rng.weighted(&[4, 1, 1]) {
            0 => draft.and(root, other),
            1 => draft.or(other, root),
            _ => draft.implies(other, root),
        };
    }
    if rng.chance(1, 20) {
        draft.root = rng.below(nodes) as u16;
    }
    draft
}

/// The nodes that are nobody's child, ascending.
fn parentless(draft: &Draft) -> Vec<u16> {
    let mut loose = vec![true; draft.nodes.len()];
    for &node in &draft.nodes {
        let children = match node {
            Node::Atom(_) => continue,
            Node::Not(child) | Node::Box { child, .. } | Node::Diamond { child, .. } => [child; 2],
            Node::And(a, b) | Node::Or(a, b) | Node::Implies(a, b) => [a, b],
        };
        for child in children {
            loose[usize::from(child)] = false;
        }
    }
    (0..).zip(loose).filter(|(_, loose)| *loose).map(|(node, _)| node).collect()
}

/// A long line of modal nodes, now and then joined with a literal or a node far below. A box
/// stands beside a diamond, so that the line goes on below it, but for a rare dead end.
fn deep(rng: &mut Rng) -> Draft {
    let mut draft = Draft::new(rng.between(1, 3) as u16, rng.between(1, 2) as u16);
    let literals = literals(&mut draft);
    let weights = [rng.between(5, 60), rng.below(6), rng.below(4), rng.below(3), rng.below(3), 1];
    let nodes = rng.between(10, 510);
    while draft.nodes.len() < nodes {
        let (below, other) = (draft.root, child(rng, &draft, 512));
        let (literal, relation) = (literals[rng.below(literals.len())], relation(rng, &draft));
        match rng.weighted(&weights) {
            0 => draft.possibly(below, relation),
            1 => {
                let line = draft.necessarily(below, relation);
                let beside = draft.possibly(literal, relation);
                draft.and(line, beside)
            }
            2 => draft.and(literal, below),
            3 => draft.and(below, other),
            4 => draft.or(other, below),
            _ => draft.add([Node::Not(below), Node::Box { child: below, relation }][rng.below(2)]),
        };
    }
    draft
}

/// One row of modal items over small propositional formulas, joined from the left.
fn wide(rng: &mut Rng) -> Draft {
    let mut draft = Draft::new(rng.between(1, 4) as u16, rng.between(1, 12) as u16);
    for _ in 0..rng.between(2, 60) {
        let node = node(rng, &draft, &[3, 2, 2, 2, 1, 0, 0], 10);
        draft.add(node);
    }
    let below = draft.nodes.len();
    let items: Vec<u16> = (0..rng.between(2, 200))
        .map(|_| {
            let (child, relation) = (rng.below(below) as u16, relation(rng, &draft));
            draft.add(match rng.below(3) {
                0 => Node::Box { child, relation },
                1 => Node::Diamond { child, relation },
                _ => Node::Not(child),
            })
        })
        .collect();
    let ands = rng.between(1, 6);
    let mut root = draft.root;
    for item in items {
        root = match rng.weighted(&[ands, 1]) {
            0 => draft.and(root, item),
            _ => draft.or(item, root),
        };
    }
    draft
}

/// A heavily shared book: every node is over the last few, often over one of them twice.
fn shared(rng: &mut Rng) -> Draft {
    let mut draft = Draft::new(rng.between(1, 2) as u16, rng.between(1, 5) as u16);
    let first = atom(rng, &draft);
    draft.add(first);
    let modal = rng.below(2);
    for _ in 0..rng.between(5, 500) {
        let one = child(rng, &draft, 2);
        let other = if rng.chance(1, 2) { one } else { child(rng, &draft, 4) };
        let relation = relation(rng, &draft);
        draft.add(match rng.weighted(&[8, 4, 3, 2, 1, modal, modal]) {
            0 => Node::And(one, other),
            1 => Node::Or(one, other),
            2 => Node::Implies(one, other),
            3 => Node::Not(one),
            4 => atom(rng, &draft),
            5 => Node::Diamond { child: one, relation },
            _ => Node::Box { child: one, relation },
        });
    }
    draft
}

/// A node for every atom and one for its negation.
fn literals(draft: &mut Draft) -> Vec<u16> {
    let atoms: Vec<u16> = (0..draft.atoms).map(|atom| draft.atom(atom)).collect();
    let negations: Vec<u16> = atoms.iter().map(|&atom| draft.not(atom)).collect();
    [atoms, negations].concat()
}

/// A random 3-CNF with a little over four clauses an atom.
fn cnf(rng: &mut Rng) -> Draft {
    let atoms = rng.between(3, 34);
    let mut draft = Draft::new(1, atoms as u16);
    let literals = literals(&mut draft);
    let number = (rng.between(30, 50) * atoms / 10).min((draft.room() + 1) / 3);
    let clauses: Vec<u16> = (0..number)
        .map(|_| {
            let three = [(); 3].map(|()| literals[rng.below(literals.len())]);
            draft.any_of(&three)
        })
        .collect();
    draft.all_of(&clauses);
    draft
}

/// A CNF over items of which some are modal, over a CNF of the level below.
fn modal_cnf(rng: &mut Rng) -> Draft {
    let mut draft = Draft::new(rng.between(1, 2) as u16, rng.between(2, 5) as u16);
    let literals = literals(&mut draft);
    let mut below = literals.clone();
    for _ in 0..rng.between(1, 3) {
        let mut items = literals.clone();
        for _ in 0..rng.between(2, 8) {
            let (child, relation) = (below[rng.below(below.len())], relation(rng, &draft));
            items.push(draft.add(match rng.below(2) {
                0 => Node::Box { child, relation },
                _ => Node::Diamond { child, relation },
            }));
        }
        below = (0..rng.between(2, 14))
            .map(|_| {
                let width = rng.between(1, 3);
                let some: Vec<u16> = (0..width).map(|_| items[rng.below(items.len())]).collect();
                draft.any_of(&some)
            })
            .collect();
    }
    draft.all_of(&below);
    draft
}

/// Pigeons into holes: each has one, and no two the same.
fn pigeons(rng: &mut Rng) -> Draft {
    let holes = rng.between(2, 4);
    let pigeons = holes + rng.below(2);
    let mut draft = Draft::new(1, (holes * pigeons) as u16);
    let literals = literals(&mut draft);
    let (sits, absent) = literals.split_at(holes * pigeons);
    let mut rules: Vec<u16> = sits.chunks(holes).map(|row| draft.any_of(row)).collect();
    for hole in 0..holes {
        for one in 0..pigeons {
            for other in 0..one {
                rules.push(draft.or(absent[one * holes + hole], absent[other * holes + hole]));
            }
        }
    }
    draft.all_of(&rules);
    draft
}

/// Diamonds and boxes over small formulas that clash now and then, side by side at state 1.
fn fan(rng: &mut Rng) -> Draft {
    let mut draft = Draft::new(rng.between(1, 3) as u16, rng.between(2, ATOMS as usize) as u16);
    let parts: Vec<u16> = (0..rng.between(4, 60))
        .map(|_| {
            let node = node(rng, &draft, &[6, 1, 1, 4, 2, 0, 0], 12);
            draft.add(node)
        })
        .collect();
    let mut items = Vec::new();
    for _ in 0..rng.between(2, 120) {
        let (part, relation) = (parts[rng.below(parts.len())], relation(rng, &draft));
        items.push(match rng.below(2) {
            0 => draft.possibly(part, relation),
            _ => draft.necessarily(part, relation),
        });
    }
    let items: Vec<u16> = items.into_iter().take(draft.room() + 1).collect();
    draft.all_of(&items);
    draft
}
