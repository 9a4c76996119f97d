//! 01, "The search", with 02's orders 6 and 8: every clause is visited once at the root, and from
//! then on only those that hold a literal just made false. The trail is their queue as well; it
//! stands in for recursion. All clauses are met when the number of unmet ones is 0; it is kept
//! beside the assignment, true after every forcing, branch and return.

use crate::build::{CLAUSES, VARIABLES};

/// How the search ended.
#[derive(Clone, Copy, Debug, PartialEq, Eq)]
pub enum Verdict {
    Yes,
    No,
    Stopped,
}

/// The verdict with its count: C for yes and no, the budget for stopped.
#[derive(Clone, Copy, Debug, PartialEq, Eq)]
pub struct Found {
    pub verdict: Verdict,
    pub count: u32,
}

type Clause = [i16; 3];

/// A literal's truth. Those of a clause's distinct literals are added up: 0 fails, 1 forces its
/// unassigned literal, from `TRUE` on it is met, and between them it is open. Met is told with
/// repeated ones in the sum as well.
const FALSE: u8 = 0;
const UNASSIGNED: u8 = 1;
const TRUE: u8 = 4;

const LITERALS: usize = 8192;
const TRAIL: usize = VARIABLES + 1;

/// Working space of the search; what it held before has no effect.
pub struct Space {
    /// By literal, see [`slot`]. Literal 0, the unused place of a clause, is false.
    truth: [u8; LITERALS],
    /// The literals made true, in order.
    trail: [i16; TRAIL],
    made: usize,
    /// How many of them had the clauses of their negation visited.
    seen: usize,
    /// The number of clauses without a true literal.
    unmet: usize,
    /// For each open first branch, where its literal stands on the trail.
    marks: [u16; TRAIL],
    /// For each open first branch, the number of unmet clauses before it.
    unmet_before: [u16; TRAIL],
    open: usize,
    holders: Holders,
}

impl Default for Space {
    fn default() -> Space {
        Space {
            truth: [FALSE; LITERALS],
            trail: [0; TRAIL],
            made: 0,
            seen: 0,
            unmet: 0,
            marks: [0; TRAIL],
            unmet_before: [0; TRAIL],
            open: 0,
            holders: Holders { last: [0; LITERALS], before: [0; 3 * CLAUSES + 1] },
        }
    }
}

/// The places of each literal among the numbers of the clauses, counted from 1: a chain from the
/// last to the first, ended by 0. A clause that repeats a literal is in its chain once, by the
/// first of these places.
struct Holders {
    /// By literal, see [`slot`].
    last: [u16; LITERALS],
    /// By place: the one before it that has the same literal.
    before: [u16; 3 * CLAUSES + 1],
}

impl Holders {
    fn chain(&mut self, clauses: &[Clause], variables: usize) {
        self.last[..=variables].fill(0);
        self.last[LITERALS - variables..].fill(0);
        for (place, literal) in (1u16..).zip(clauses.as_flattened()) {
            let last = &mut self.last[slot(*literal)];
            if last.div_ceil(3) != place.div_ceil(3) {
                self.before[usize::from(place)] = *last;
                *last = place;
            }
        }
    }
}

fn variable(literal: i16) -> usize {
    usize::from(literal.unsigned_abs())
}

/// Where a literal stands by itself: variables up from 1, their negations down from the end.
fn slot(literal: i16) -> usize {
    usize::from(literal as u16) % LITERALS
}

impl Space {
    fn start(&mut self, clauses: &[Clause], variables: usize) {
        self.truth.fill(FALSE);
        self.truth[1..=variables].fill(UNASSIGNED);
        self.truth[LITERALS - variables..].fill(UNASSIGNED);
        self.made = 0;
        self.seen = 0;
        self.unmet = clauses.len();
        self.open = 0;
        self.holders.chain(clauses, variables);
    }

    /// How many of a literal's clauses have no true literal.
    fn unmet_with(&self, clauses: &[Clause], literal: i16) -> usize {
        let mut unmet = 0;
        let mut place = self.holders.last[slot(literal)];
        while let Some(at) = usize::from(place).checked_sub(1) {
            place = self.holders.before[at + 1];
            let sum: u8 = clauses[at / 3].iter().map(|&other| self.truth[slot(other)]).sum();
            unmet += usize::from(sum < TRUE);
        }
        unmet
    }

    /// Makes an unassigned literal true.
    fn make_true(&mut self, clauses: &[Clause], literal: i16) {
        self.unmet -= self.unmet_with(clauses, literal);
        self.truth[slot(literal)] = TRUE;
        self.truth[slot(literal.wrapping_neg())] = FALSE;
        self.trail[self.made] = literal;
        self.made += 1;
        #[cfg(test)]
        self.compare(clauses);
    }

    fn undo(&mut self, made: usize) {
        for &literal in &self.trail[made..self.made] {
            self.truth[slot(literal)] = UNASSIGNED;
            self.truth[slot(literal.wrapping_neg())] = UNASSIGNED;
        }
        self.made = made;
        self.seen = made;
    }

    /// Makes true what a clause forces; false if it fails. A repeated literal is left out of the
    /// sum, so that met and open need no telling apart: a branch on that is mostly guessed wrong.
    fn visit(&mut self, clauses: &[Clause], clause: &Clause) -> bool {
        let [a, b, c] = *clause;
        let [of_a, of_b, of_c] = clause.map(|literal| self.truth[slot(literal)]);
        let sum = of_a + of_b * u8::from(b != a) + of_c * u8::from((c != a) & (c != b));
        if sum == UNASSIGNED {
            let forced = match (of_a, of_b) {
                (UNASSIGNED, _) => a,
                (_, UNASSIGNED) => b,
                _ => c,
            };
            self.make_true(clauses, forced);
        }
        sum != FALSE
    }

    /// Visits the clauses that hold a literal made false since; false if one fails.
    fn propagate(&mut self, clauses: &[Clause]) -> bool {
        while self.seen < self.made {
            let mut place = self.holders.last[slot(self.trail[self.seen].wrapping_neg())];
            self.seen += 1;
            while let Some(at) = usize::from(place).checked_sub(1) {
                place = self.holders.before[at + 1];
                if !self.visit(clauses, &clauses[at / 3]) {
                    return false;
                }
            }
        }
        true
    }

    /// Propagation at a node; at the root it starts with a visit of every clause.
    fn settle(&mut self, clauses: &[Clause], root: bool) -> bool {
        (!root || clauses.iter().all(|clause| self.visit(clauses, clause)))
            && self.propagate(clauses)
    }

    /// The first branch on a variable.
    fn branch(&mut self, clauses: &[Clause], variable: usize) {
        self.marks[self.open] = self.made as u16;
        self.unmet_before[self.open] = self.unmet as u16;
        self.open += 1;
        self.make_true(clauses, variable as i16);
    }

    /// Back to the last first branch, and into its second one; gives the variable. `None` if
    /// there is no first branch left.
    fn turn(&mut self, clauses: &[Clause]) -> Option<usize> {
        self.open = self.open.checked_sub(1)?;
        let mark = usize::from(self.marks[self.open]);
        let literal = self.trail[mark];
        self.undo(mark);
        self.unmet = usize::from(self.unmet_before[self.open]);
        #[cfg(test)]
        self.compare(clauses);
        self.make_true(clauses, -literal);
        Some(variable(literal))
    }

    /// The lowest unassigned variable from `from` on, below which none is.
    fn lowest(&self, from: usize, variables: usize) -> Option<usize> {
        (from..=variables).find(|&variable| self.truth[variable] == UNASSIGNED)
    }

    fn run(&mut self, clauses: &[Clause], variables: usize, budget: u32) -> Found {
        let mut from = 1;
        for entered in 0..budget {
            let count = entered + 1;
            let calm = self.settle(clauses, entered == 0);
            if calm && self.unmet == 0 {
                return Found { verdict: Verdict::Yes, count };
            }
            let next = if calm { self.lowest(from, variables) } else { None };
            let branched = match next {
                Some(variable) => {
                    self.branch(clauses, variable);
                    next
                }
                None => self.turn(clauses),
            };
            match branched {
                Some(variable) => from = variable + 1,
                None => return Found { verdict: Verdict::No, count },
            }
        }
        Found { verdict: Verdict::Stopped, count: budget }
    }
}

/// Searches the first `number` clauses (three literals each, flat; at most 5,000) over the
/// variables 1 to `variables`, at most 4,095; every literal is one of these, its negation, or 0.
/// Values of these variables are written for yes, and are 0 for no and stopped; values after them
/// stay untouched.
pub fn search(
    clauses: &[i16],
    number: usize,
    variables: usize,
    budget: u32,
    space: &mut Space,
    values: &mut [u8],
) -> Found {
    let clauses = clauses.as_chunks::<3>().0;
    let clauses = &clauses[..number.min(clauses.len())];
    let variables = variables.min(VARIABLES);
    space.start(clauses, variables);
    let found = space.run(clauses, variables, budget);
    let yes = found.verdict == Verdict::Yes;
    for (value, &truth) in values.iter_mut().zip(&space.truth[1..=variables]) {
        *value = u8::from(yes && truth == TRUE);
    }
    found
}

#[cfg(test)]
mod tests {
    use super::*;
    use crate::generate::Rng;

    impl Space {
        /// The number of unmet clauses is that of a scan, which looks for literals on the trail.
        pub(super) fn compare(&self, clauses: &[Clause]) {
            let made = &self.trail[..self.made];
            let met = |clause: &&Clause| clause.iter().any(|literal| made.contains(literal));
            let unmet = clauses.len() - clauses.iter().filter(met).count();
            assert_eq!(self.unmet, unmet, "{made:?} made true of {clauses:?}");
        }
    }

    /// Any three numbers: unused places, repeated literals, both signs.
    fn clause(rng: &mut Rng, variables: usize) -> Clause {
        [(); 3].map(|()| {
            let variable = rng.between(0, variables) as i16;
            [variable, -variable][rng.below(2)]
        })
    }

    /// Each step of these searches compares the number with a scan.
    #[test]
    fn the_number_of_unmet_clauses_is_that_of_a_scan() {
        let (mut space, mut values) = (Space::default(), [0; 20]);
        let (mut yes, mut no, mut nodes) = (0, 0, 0);
        for seed in 0..5_000 {
            let mut rng = Rng::new(seed);
            let variables = rng.between(1, 20);
            let number = rng.between(0, 5 * variables);
            let clauses: Vec<Clause> = (0..number).map(|_| clause(&mut rng, variables)).collect();
            let flat = clauses.as_flattened();
            let found = search(flat, number, variables, u32::MAX, &mut space, &mut values);
            let branched = u32::from(found.count > 1);
            match found.verdict {
                Verdict::Yes => yes += branched,
                Verdict::No => no += branched,
                Verdict::Stopped => panic!("stopped without a budget"),
            }
            nodes += found.count;
        }
        assert!(yes > 1_000 && no > 300 && nodes > 20_000, "{yes} {no} {nodes}");
    }
}
