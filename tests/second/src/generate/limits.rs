//! Books whose build stands exactly at a limit (01, answer 15), or just beside it. Each family
//! states its totals as formulas of its parameters.

use super::{Draft, Rng};
use crate::answer::Buffers;
use crate::book::Node;
use crate::build::{build, Totals, CLAUSES, STATES, VARIABLES};

/// One of the build's three limits.
#[derive(Clone, Copy, Debug, PartialEq, Eq)]
pub enum Limit {
    States,
    Variables,
    Clauses,
}

impl Limit {
    /// The most that a build may have.
    pub fn most(self) -> usize {
        match self {
            Limit::States => STATES,
            Limit::Variables => VARIABLES,
            Limit::Clauses => CLAUSES,
        }
    }

    fn of(self, totals: Totals) -> usize {
        match self {
            Limit::States => totals.states,
            Limit::Variables => totals.variables,
            Limit::Clauses => totals.clauses,
        }
    }
}

/// A book near a limit: `value` is what its whole build has of it. It is refused with 15 exactly
/// if that is over the limit.
#[derive(Clone, Debug)]
pub struct LimitBook {
    pub family: &'static str,
    pub limit: Limit,
    pub value: usize,
    pub draft: Draft,
}

/// F8 of 01 with `extra` diamonds of p added by "and", on relations 0 and 1 in turn.
/// States 511 + extra; variables and clauses 1,021 + 3 × extra.
pub fn binary_states(extra: usize) -> Draft {
    let mut draft = Draft::new(2, 1);
    let p = draft.atom(0);
    let mut root = p;
    for _ in 0..8 {
        let (left, right) = (draft.possibly(root, 0), draft.possibly(root, 1));
        root = draft.and(left, right);
    }
    for number in 0..extra {
        let more = draft.possibly(p, (number % 2) as u16);
        root = draft.and(root, more);
    }
    draft
}

/// A line of `long` diamonds over p, and a second one of `short` that shares all but its top.
/// With `short` from 1 to `long`: states 1 + long + short, variables states + 2, clauses
/// states + 2.
pub fn chain_states(long: usize, short: usize) -> Draft {
    let mut draft = Draft::new(1, 1);
    let mut line = vec![draft.atom(0)];
    for at in 0..long {
        line.push(draft.possibly(line[at], 0));
    }
    let second = draft.possibly(line[short.clamp(1, long.max(1)) - 1], 0);
    draft.and(line[long], second);
    draft
}

/// A fan of `width` diamonds of p; the root has it, and so have `copies` successors; and `extra`
/// more diamonds of p. States 1 + width + copies × (1 + width) + extra.
pub fn fan_states(width: usize, copies: usize, extra: usize) -> Draft {
    let mut draft = Draft::new(1, 1);
    let p = draft.atom(0);
    let spokes: Vec<u16> = (0..width).map(|_| draft.possibly(p, 0)).collect();
    let fan = draft.all_of(&spokes);
    let mut items = vec![fan];
    items.extend((0..copies).map(|_| draft.possibly(fan, 0)));
    items.extend((0..extra).map(|_| draft.possibly(p, 0)));
    draft.all_of(&items);
    draft
}

/// "or" of the root with itself, `times` over: one variable and one clause more each time.
fn pad(draft: &mut Draft, times: usize) {
    for _ in 0..times {
        draft.or(draft.root, draft.root);
    }
}

/// `diamonds` of p and `boxes` over an atom each, and `extra` paddings at the root.
/// States 1 + d; variables and clauses 3d + 2b − 1 + d × b + extra.
pub fn fan_variables(diamonds: usize, boxes: usize, extra: usize) -> Draft {
    let mut draft = Draft::new(1, (boxes as u16).saturating_add(1));
    let p = draft.atom(0);
    let mut items: Vec<u16> = (0..diamonds).map(|_| draft.possibly(p, 0)).collect();
    for atom in 1..=boxes {
        let part = draft.atom(atom as u16);
        items.push(draft.necessarily(part, 0));
    }
    draft.all_of(&items);
    pad(&mut draft, extra);
    draft
}

/// `diamonds` and `boxes` all over p, and `extra` paddings at the root.
/// States 1 + d; variables 3d + 2b − 1 + extra; clauses 3d + 2b − 1 + d × b + extra.
pub fn fan_clauses(diamonds: usize, boxes: usize, extra: usize) -> Draft {
    let mut draft = Draft::new(1, 1);
    let p = draft.atom(0);
    let mut items: Vec<u16> = (0..diamonds).map(|_| draft.possibly(p, 0)).collect();
    items.extend((0..boxes).map(|_| draft.necessarily(p, 0)));
    draft.all_of(&items);
    pad(&mut draft, extra);
    draft
}

fn measure(draft: &Draft) -> Option<Totals> {
    let book = draft.book().ok()?;
    let mut lent = Buffers::default();
    build(&book, &mut lent.states, &mut lent.words, &mut lent.clauses)
}

/// Pads any book at its root until its build would have `value` of the limit: by a diamond for a
/// state, by an "or" with itself for a variable or a clause. `None` if the book is beyond it
/// already or has no room, or if padding would pass another limit.
pub fn pad_to(draft: &Draft, limit: Limit, value: usize) -> Option<Draft> {
    let totals = measure(draft)?;
    let missing = value.checked_sub(limit.of(totals))?;
    let within = |other: Limit| other == limit || other.of(totals) + missing <= other.most();
    let padded_others = match limit {
        Limit::States => within(Limit::Variables) && within(Limit::Clauses),
        Limit::Variables => within(Limit::Clauses),
        Limit::Clauses => within(Limit::Variables),
    };
    if missing > draft.room() || !padded_others {
        return None;
    }
    let mut padded = draft.clone();
    for _ in 0..missing {
        match limit {
            Limit::States => padded.possibly(padded.root, 0),
            _ => padded.or(padded.root, padded.root),
        };
    }
    Some(padded)
}

/// Random parts, and modal items over them to be joined by "and".
struct Fan {
    parts: Draft,
    items: Vec<Node>,
}

impl Fan {
    /// For states some parts are diamonds again and boxes are few; for variables the atoms are
    /// many and the parts disjunctive; for clauses the atoms are few.
    fn random(rng: &mut Rng, limit: Limit) -> Fan {
        let (atoms, kinds, boxes) = match limit {
            Limit::States => (rng.between(1, 40), [1, 1, 1, 2], rng.between(0, 2)),
            Limit::Variables => (rng.between(60, 120), [0, 4, 1, 0], rng.between(2, 5)),
            Limit::Clauses => (rng.between(1, 30), [2, 1, 1, 0], rng.between(2, 6)),
        };
        let mut parts = Draft::new(rng.between(1, 2) as u16, atoms as u16);
        for atom in 0..parts.atoms {
            parts.atom(atom);
        }
        for _ in 0..rng.between(1, 60) {
            let below = parts.nodes.len();
            let (one, other) = (rng.below(below) as u16, rng.below(below) as u16);
            match rng.weighted(&kinds) {
                0 => parts.and(one, other),
                1 => parts.or(one, other),
                2 => parts.implies(one, other),
                _ => parts.possibly(one, 0),
            };
        }
        let item = |_| {
            let child = rng.below(parts.nodes.len()) as u16;
            let relation = rng.below(usize::from(parts.relations)) as u16;
            match rng.below(8) < boxes {
                true => Node::Box { child, relation },
                false => Node::Diamond { child, relation },
            }
        };
        let items = (0..parts.room() / 2).map(item).collect();
        Fan { parts, items }
    }

    /// The book of the first `number` items.
    fn join(&self, number: usize) -> Draft {
        let mut draft = self.parts.clone();
        let items = self.items[..number].iter();
        let items: Vec<u16> = items.map(|&item| draft.add(item)).collect();
        draft.all_of(&items);
        draft
    }
}

/// A random book whose build would have exactly `value` of the limit: as many random items as
/// stay within it, then padding. `None` if that can't be had from the random parts drawn.
pub fn random_at(rng: &mut Rng, limit: Limit, value: usize) -> Option<Draft> {
    let fan = Fan::random(rng, limit);
    let most = limit.most().min(value);
    let fits = |number| measure(&fan.join(number)).is_some_and(|totals| limit.of(totals) <= most);
    let numbers: Vec<usize> = (1..=fan.items.len()).collect();
    pad_to(&fan.join(numbers.partition_point(|&number| fits(number))), limit, value)
}

/// The fixed families with each limit's value from one below to one above, and random books
/// padded to the same values (as far as `tries` random ones per value serve).
pub fn at_limits(rng: &mut Rng, tries: usize) -> Vec<LimitBook> {
    let mut books = fixed();
    for limit in [Limit::States, Limit::Variables, Limit::Clauses] {
        for value in limit.most() - 1..=limit.most() + 1 {
            let random = (0..tries).filter_map(|_| random_at(rng, limit, value));
            books.extend(random.map(|draft| LimitBook {
                family: "random_at",
                limit,
                value,
                draft,
            }));
        }
    }
    books
}

/// The fixed families, each from one below its limit to one above.
fn fixed() -> Vec<LimitBook> {
    let mut books = Vec::new();
    for step in 0..3 {
        let mut near = |limit: Limit, family, drafts: [Draft; 3]| {
            let value = limit.most() - 1 + step;
            books.extend(drafts.map(|draft| LimitBook { family, limit, value, draft }));
        };
        let chains = [(509, 1), (400, 110), (300, 210)];
        near(Limit::States, "chain_states", chains.map(|(a, b)| chain_states(a, b + step)));
        let fans = [(169, 2, 1), (50, 9, 1), (7, 59, 31)];
        near(Limit::States, "fan_states", fans.map(|(a, b, c)| fan_states(a, b, c + step)));
        let fans = [(39, 97, 1), (98, 38, 1), (60, 60, 195)];
        near(
            Limit::Variables,
            "fan_variables",
            fans.map(|(a, b, c)| fan_variables(a, b, c + step)),
        );
        let fans = [(33, 140, 1), (89, 52, 1), (67, 68, 107)];
        near(Limit::Clauses, "fan_clauses", fans.map(|(a, b, c)| fan_clauses(a, b, c + step)));
        let (limit, value, draft) = (Limit::States, STATES - 1 + step, binary_states(step));
        books.push(LimitBook { family: "binary_states", limit, value, draft });
    }
    books
}
