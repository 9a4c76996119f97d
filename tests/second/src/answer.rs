//! 01, "Answers by number": the whole check, with what each lent buffer holds afterwards.

use crate::book::parse;
use crate::build::{build, Totals, CLAUSES, STATES, VARIABLES};
use crate::search::{search, Space, Verdict};

/// Numbers of a lent table of state records: 512 of three.
pub const STATE_NUMBERS: usize = 3 * STATES;
/// Literals of the lent clauses: 5,000 of three.
pub const CLAUSE_NUMBERS: usize = 3 * CLAUSES;

/// The number of refusal 10: a lent buffer is shorter than its size.
pub const SHORT_BUFFER: u16 = 10;
/// The number of refusal 15: the build is over a limit.
pub const OVER_LIMIT: u16 = 15;

/// The answer to one check.
#[derive(Clone, Copy, Debug, Default, PartialEq, Eq)]
pub struct Answer {
    pub number: u16,
    pub place: u16,
    pub totals: Totals,
    pub count: u32,
}

impl Answer {
    fn refused(number: u16, place: u16) -> Answer {
        Answer { number, place, ..Answer::default() }
    }
}

/// The four lent buffers.
pub struct Lent<'a> {
    /// State records, flat: parent, relation, maker.
    pub states: &'a mut [u16],
    /// A word a variable.
    pub words: &'a mut [u32],
    /// Literals, three a clause.
    pub clauses: &'a mut [i16],
    /// A value a variable.
    pub values: &'a mut [u8],
}

impl<'a> Lent<'a> {
    /// The parts up to the stated sizes; `None` if a buffer is shorter.
    fn sized(self) -> Option<Lent<'a>> {
        Some(Lent {
            states: self.states.get_mut(..STATE_NUMBERS)?,
            words: self.words.get_mut(..VARIABLES)?,
            clauses: self.clauses.get_mut(..CLAUSE_NUMBERS)?,
            values: self.values.get_mut(..VARIABLES)?,
        })
    }

    /// Zero from the totals on.
    fn clear_after(&mut self, totals: Totals) {
        self.states[3 * totals.states..].fill(0);
        self.words[totals.variables..].fill(0);
        self.clauses[3 * totals.clauses..].fill(0);
        self.values[totals.variables..].fill(0);
    }
}

/// Checks a book within a budget of search nodes. Refusals 10 to 14 touch nothing, 15 leaves zeros
/// up to the stated sizes, and a verdict leaves the build, the values (all 0 unless yes) and zeros
/// after them. Nothing beyond a stated size is touched.
pub fn check(bytes: &[u8], budget: u32, lent: Lent) -> Answer {
    let Some(mut lent) = lent.sized() else {
        return Answer::refused(SHORT_BUFFER, 0);
    };
    let book = match parse(bytes) {
        Ok(book) => book,
        Err(refusal) => return Answer::refused(refusal.number(), refusal.place()),
    };
    let Some(totals) = build(&book, lent.states, lent.words, lent.clauses) else {
        lent.clear_after(Totals::default());
        return Answer::refused(OVER_LIMIT, 0);
    };
    lent.clear_after(totals);
    let Totals { variables, clauses, .. } = totals;
    let mut space = Space::default();
    let found = search(lent.clauses, clauses, variables, budget, &mut space, lent.values);
    let number = match found.verdict {
        Verdict::Yes => 1,
        Verdict::No => 2,
        Verdict::Stopped => 3,
    };
    Answer { number, place: 0, totals, count: found.count }
}

/// Owned buffers of the stated sizes or others, to lend.
#[derive(Clone, Debug, PartialEq, Eq)]
pub struct Buffers {
    pub states: Vec<u16>,
    pub words: Vec<u32>,
    pub clauses: Vec<i16>,
    pub values: Vec<u8>,
}

impl Default for Buffers {
    /// The stated sizes, all zero.
    fn default() -> Buffers {
        Buffers::filled(0, 0)
    }
}

impl Buffers {
    /// The stated sizes and `extra` numbers beyond each, all filled with one number.
    pub fn filled(extra: usize, fill: u8) -> Buffers {
        Buffers {
            states: vec![u16::from(fill); STATE_NUMBERS + extra],
            words: vec![u32::from(fill); VARIABLES + extra],
            clauses: vec![i16::from(fill); CLAUSE_NUMBERS + extra],
            values: vec![fill; VARIABLES + extra],
        }
    }

    pub fn lend(&mut self) -> Lent<'_> {
        Lent {
            states: &mut self.states,
            words: &mut self.words,
            clauses: &mut self.clauses,
            values: &mut self.values,
        }
    }
}
