//! The books by number: the same number gives the same bytes everywhere.

use second::generate::{
    at_limits, binary_states, book, chain_states, extend, fan_clauses, fan_states, fan_variables,
    flip_bits, header_damage, note, offset_books, random_at, record_damage, size_books, truncate,
    Draft, Limit, Rng, Shape,
};

/// Bytes with a word on how they came about.
pub struct Labelled {
    pub label: String,
    pub bytes: Vec<u8>,
}

impl Labelled {
    fn new(label: impl Into<String>, bytes: Vec<u8>) -> Labelled {
        Labelled { label: label.into(), bytes }
    }
}

/// The two streams of books.
#[derive(Clone, Copy, Debug, PartialEq, Eq)]
pub enum Stream {
    WellFormed,
    Damaged,
}

impl Stream {
    /// The stream of that name.
    pub fn named(name: &str) -> Option<Stream> {
        [Stream::WellFormed, Stream::Damaged].into_iter().find(|stream| stream.name() == name)
    }

    pub fn name(self) -> &'static str {
        match self {
            Stream::WellFormed => "well-formed",
            Stream::Damaged => "damaged",
        }
    }

    /// The generator for a unit of the stream.
    pub fn rng(self, unit: u64) -> Rng {
        let seed = match self {
            Stream::WellFormed => 0x5EED_0001,
            Stream::Damaged => 0x5EED_0002,
        };
        Rng::new((seed << 32) + unit)
    }

    /// Books that a unit has at least.
    pub fn least(self) -> u64 {
        match self {
            Stream::WellFormed => 1,
            Stream::Damaged => 166,
        }
    }

    /// The books of a unit: one that keeps the rules, or the damaged ones of one book. The first
    /// units are the fixed books at the limits.
    pub fn unit(self, unit: u64, rng: &mut Rng) -> Vec<Labelled> {
        match self {
            Stream::WellFormed if unit < LIMITS => vec![at_limit(unit as usize, rng)],
            Stream::WellFormed => vec![well_formed(rng)],
            Stream::Damaged => damaged(rng),
        }
    }
}

/// The shapes, and of 1,000 books how many have each.
const SHAPES: [(Shape, usize); 13] = [
    (Shape::Small, 505),
    (Shape::Medium, 120),
    (Shape::Large, 3),
    (Shape::Deep, 10),
    (Shape::Wide, 4),
    (Shape::Shared, 12),
    (Shape::Relations, 60),
    (Shape::RepeatedAtoms, 130),
    (Shape::NotChains, 4),
    (Shape::Cnf, 20),
    (Shape::ModalCnf, 100),
    (Shape::Pigeons, 28),
    (Shape::Fan, 4),
];

fn shaped(rng: &mut Rng) -> (Shape, Draft) {
    let shape = SHAPES[rng.weighted(&SHAPES.map(|(_, weight)| weight))].0;
    (shape, book(shape, rng))
}

fn well_formed(rng: &mut Rng) -> Labelled {
    let near = match rng.below(1_000) {
        0 => random_near(rng),
        1..=2 => Some(family(rng)),
        _ => None,
    };
    let (label, draft) = match near {
        Some(draft) => ("near a limit".into(), draft),
        None => {
            let (shape, draft) = shaped(rng);
            (format!("{shape:?}"), draft)
        }
    };
    Labelled::new(label, draft.bytes(&note(rng)))
}

/// How many fixed books stand one below, at and one above each limit.
const LIMITS: u64 = 39;

fn at_limit(number: usize, rng: &mut Rng) -> Labelled {
    let one = at_limits(rng, 0).swap_remove(number);
    Labelled::new(format!("{} {:?} {}", one.family, one.limit, one.value), one.draft.bytes(&[]))
}

/// A random book whose build has a limit's number, one less or one more.
fn random_near(rng: &mut Rng) -> Option<Draft> {
    let limit = [Limit::States, Limit::Variables, Limit::Clauses][rng.below(3)];
    let value = limit.most() - 1 + rng.below(3);
    random_at(rng, limit, value)
}

/// A book of the families that stand at each limit, from below it to beyond.
fn family(rng: &mut Rng) -> Draft {
    let (step, which) = (rng.below(4), rng.below(3));
    match rng.below(5) {
        0 => binary_states(step),
        1 => {
            let long = rng.between(260, 508);
            chain_states(long, 509 + step - long)
        }
        2 => {
            let (width, copies, extra) = [(169, 2, 1), (50, 9, 1), (7, 59, 31)][which];
            fan_states(width, copies, extra + step)
        }
        3 => {
            let (diamonds, boxes, extra) = [(39, 97, 1), (98, 38, 1), (60, 60, 195)][which];
            fan_variables(diamonds, boxes, extra + step)
        }
        _ => {
            let (diamonds, boxes, extra) = [(33, 140, 1), (89, 52, 1), (67, 68, 107)][which];
            fan_clauses(diamonds, boxes, extra + step)
        }
    }
}

/// One book, damaged in its header's fields and lengths at and past each bound, in each field of
/// some of its nodes, and by random bits, cuts and additions.
fn damaged(rng: &mut Rng) -> Vec<Labelled> {
    let (shape, draft) = shaped(rng);
    let bytes = draft.bytes(&if rng.chance(1, 8) { note(rng) } else { vec![0x5A; rng.below(9)] });
    let mut all = header_damage(&bytes);
    let last = draft.nodes.len() - 1;
    for node in [0, last, rng.below(last + 1)] {
        all.extend(record_damage(&bytes, node as u16));
    }
    match rng.below(8) {
        0 => all.extend(offset_books(&draft)),
        1 => all.extend(size_books()),
        _ => {}
    }
    let mut all: Vec<Labelled> =
        all.into_iter().map(|one| Labelled::new(one.label, one.bytes)).collect();
    all.extend((0..24).map(|_| random_damage(rng, &bytes)));
    for one in &mut all {
        one.label = format!("{shape:?}, {}", one.label);
    }
    all
}

fn random_damage(rng: &mut Rng, bytes: &[u8]) -> Labelled {
    match rng.below(8) {
        0..=3 => {
            let times = rng.between(1, 4);
            Labelled::new(format!("{times} bits"), flip_bits(rng, bytes, times))
        }
        4 => Labelled::new("cut", truncate(rng, bytes)),
        5 => Labelled::new("cut in the header", bytes[..rng.below(17)].to_vec()),
        6 => Labelled::new("longer", extend(rng, bytes, 16)),
        _ => {
            let (head, rest) = bytes.split_at(16);
            Labelled::new("bits in the header", [flip_bits(rng, head, 2), rest.to_vec()].concat())
        }
    }
}

#[cfg(test)]
mod tests {
    use super::*;
    use second::book::parse;

    #[test]
    fn well_formed_books_keep_the_rules() {
        for unit in 0..2_000 {
            for book in Stream::WellFormed.unit(unit, &mut Stream::WellFormed.rng(unit)) {
                assert!(parse(&book.bytes).is_ok(), "{unit} {}", book.label);
            }
        }
    }

    #[test]
    fn the_first_units_are_all_the_fixed_books_at_the_limits() {
        assert_eq!(at_limits(&mut Rng::new(0), 0).len() as u64, LIMITS);
    }

    #[test]
    fn a_unit_has_its_least_and_repeats() {
        for unit in 0..100 {
            let books = || Stream::Damaged.unit(unit, &mut Stream::Damaged.rng(unit));
            assert!(books().len() as u64 >= Stream::Damaged.least(), "{}", books().len());
            assert!(books().iter().zip(books()).all(|(one, other)| one.bytes == other.bytes));
        }
    }
}
