//! Whether the books had what 01 warns of ("Errors that look right") and stood at the limits:
//! without these a comparison would pass a program that is wrong there.

use crate::calls::{CLAUSES, STATES, VARIABLES};
use crate::lending::Lending;
use second::answer::Answer;

/// What is looked for.
const NAMES: [&str; 9] = [
    "a yes with a built state that does not live",
    "a yes after branching more than once",
    "a no after branching more than once",
    "a clause with the same literal twice",
    "a clause with a variable and its negation",
    "a universal over a successor",
    "a build of 512 states",
    "a build of 4,095 variables",
    "a build of 5,000 clauses",
];

/// Books by what they had.
#[derive(Clone, Copy, Debug, Default)]
pub struct Seen([u64; NAMES.len()]);

impl Seen {
    /// Looks at what a verdict left.
    pub fn look(&mut self, left: &Lending, answer: &Answer) {
        let totals = answer.totals;
        let records = &left.states[1..totals.states];
        let clauses = left.clauses[..3 * totals.clauses].as_chunks::<3>().0;
        let at = |variable: u16| usize::from(variable) - 1;
        let dead = records.iter().any(|record| left.values[at(record[2])] == 0);
        let modal = |literal: i16| left.words[at(literal.unsigned_abs())] % 2048 < 1024;
        let had = [
            answer.number == 1 && dead,
            answer.number == 1 && answer.count > 2,
            answer.number == 2 && answer.count > 2,
            clauses.iter().any(|&[_, one, other]| one != 0 && one == other),
            clauses.iter().any(|&[_, one, other]| one != 0 && one == -other),
            clauses.iter().any(|&[_, maker, _]| maker < 0 && modal(maker)),
            totals.states == STATES,
            totals.variables == VARIABLES,
            totals.clauses == CLAUSES,
        ];
        self.0.iter_mut().zip(had).for_each(|(books, had)| *books += u64::from(had));
    }

    pub fn add(&mut self, other: &Seen) {
        self.0.iter_mut().zip(other.0).for_each(|(books, more)| *books += more);
    }

    /// What there was, by name.
    pub fn rows(&self) -> impl Iterator<Item = (&'static str, u64)> {
        NAMES.into_iter().zip(self.0)
    }
}
