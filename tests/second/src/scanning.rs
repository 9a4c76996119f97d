//! 01, "The search", to the letter of its order: propagation from the first clause each time, the
//! lowest unassigned variable, true first, nodes counted against a budget. A trail stands in for
//! recursion. It shares nothing with [`crate::search`] but what it answers, so that each is held
//! against the other, and its times are the baseline of those that visit fewer clauses.

use crate::build::VARIABLES;
use crate::search::{Found, Verdict};

/// A literal's truth. Three of them are added up for a clause: from `TRUE` on it is met, 0 has
/// none unassigned, and otherwise the sum counts the unassigned places.
const FALSE: u8 = 0;
const UNASSIGNED: u8 = 1;
const TRUE: u8 = 4;

const LITERALS: usize = 8192;
const TRAIL: usize = VARIABLES + 1;

/// Working space of the search; what it held before has no effect.
pub struct Space {
    /// By literal, see [`place`]. Literal 0, the unused place of a clause, is false.
    truth: [u8; LITERALS],
    /// The literals made true, in order.
    trail: [i16; TRAIL],
    made: usize,
    /// For each open first branch, where its literal stands on the trail.
    marks: [u16; TRAIL],
    open: usize,
}

impl Default for Space {
    fn default() -> Space {
        Space { truth: [FALSE; LITERALS], trail: [0; TRAIL], made: 0, marks: [0; TRAIL], open: 0 }
    }
}

/// Where a literal stands: variables up from 1, their negations down from the end.
fn place(literal: i16) -> usize {
    usize::from(literal as u16) % LITERALS
}

/// What propagation leaves of a node.
enum Left {
    /// Every clause has a true literal.
    Met,
    /// A clause has all its literals false.
    Failed,
    /// Clauses are left over that force nothing.
    Open,
}

impl Space {
    fn start(&mut self, variables: usize) {
        self.truth.fill(FALSE);
        self.truth[1..=variables].fill(UNASSIGNED);
        self.truth[LITERALS - variables..].fill(UNASSIGNED);
        self.made = 0;
        self.open = 0;
    }

    fn make_true(&mut self, literal: i16) {
        self.truth[place(literal)] = TRUE;
        self.truth[place(literal.wrapping_neg())] = FALSE;
        self.trail[self.made] = literal;
        self.made += 1;
    }

    fn undo(&mut self, made: usize) {
        for &literal in &self.trail[made..self.made] {
            self.truth[place(literal)] = UNASSIGNED;
            self.truth[place(literal.wrapping_neg())] = UNASSIGNED;
        }
        self.made = made;
    }

    fn propagate(&mut self, clauses: &[[i16; 3]]) -> Left {
        'again: loop {
            let mut left = Left::Met;
            for clause in clauses {
                let truth = clause.map(|literal| self.truth[place(literal)]);
                let sum = truth[0] + truth[1] + truth[2];
                if sum >= TRUE {
                    continue;
                }
                if sum == FALSE {
                    return Left::Failed;
                }
                if let Some(literal) = forced(clause, truth) {
                    self.make_true(literal);
                    continue 'again;
                }
                left = Left::Open;
            }
            return left;
        }
    }

    /// The first branch on a variable.
    fn branch(&mut self, variable: usize) {
        self.marks[self.open] = self.made as u16;
        self.open += 1;
        self.make_true(variable as i16);
    }

    /// Back to the last first branch, and into its second one; gives the variable. `None` if
    /// there is no first branch left.
    fn turn(&mut self) -> Option<usize> {
        self.open = self.open.checked_sub(1)?;
        let mark = usize::from(self.marks[self.open]);
        let literal = self.trail[mark];
        self.undo(mark);
        self.make_true(-literal);
        Some(literal as usize)
    }

    /// The lowest unassigned variable from `from` on, below which none is.
    fn lowest(&self, from: usize, variables: usize) -> Option<usize> {
        (from..=variables).find(|&variable| self.truth[variable] == UNASSIGNED)
    }

    fn run(&mut self, clauses: &[[i16; 3]], variables: usize, budget: u32) -> Found {
        let mut from = 1;
        for entered in 0..budget {
            let count = entered + 1;
            let next = match self.propagate(clauses) {
                Left::Met => return Found { verdict: Verdict::Yes, count },
                Left::Open => self.lowest(from, variables),
                Left::Failed => None,
            };
            let branched = match next {
                Some(variable) => {
                    self.branch(variable);
                    Some(variable)
                }
                None => self.turn(),
            };
            match branched {
                Some(variable) => from = variable + 1,
                None => return Found { verdict: Verdict::No, count },
            }
        }
        Found { verdict: Verdict::Stopped, count: budget }
    }
}

/// The literal that a clause without true literals forces: its unassigned ones are all the same.
fn forced(clause: &[i16; 3], truth: [u8; 3]) -> Option<i16> {
    let mut unassigned = (0..3).filter(|&at| truth[at] == UNASSIGNED).map(|at| clause[at]);
    let literal = unassigned.next()?;
    unassigned.all(|other| other == literal).then_some(literal)
}

/// Searches the first `number` clauses (three literals each, flat) over the variables 1 to
/// `variables`, at most 4,095; every literal is one of these, its negation, or 0. Values of these
/// variables are written for yes, and are 0 for no and stopped; values after them stay untouched.
pub fn search(
    clauses: &[i16],
    number: usize,
    variables: usize,
    budget: u32,
    space: &mut Space,
    values: &mut [u8],
) -> Found {
    let clauses = clauses.as_chunks::<3>().0;
    let clauses = &clauses[..number.min(clauses.len())];
    let variables = variables.min(VARIABLES);
    space.start(variables);
    let found = space.run(clauses, variables, budget);
    let yes = found.verdict == Verdict::Yes;
    for (value, &truth) in values.iter_mut().zip(&space.truth[1..=variables]) {
        *value = u8::from(yes && truth == TRUE);
    }
    found
}
