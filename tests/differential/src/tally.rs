//! What was compared, counted.

use crate::seen::Seen;
use std::fmt;

/// The numbers of 01's table.
pub const NUMBERS: [u32; 9] = [1, 2, 3, 10, 11, 12, 13, 14, 15];

/// Counts by number; the rest of the numbers below 16 stay 0.
pub type Counts = [u64; 16];

/// The comparisons that agreed.
#[derive(Clone, Copy, Debug, Default)]
pub struct Tally {
    pub books: u64,
    /// `rulebook_check_into` by its number.
    pub into: Counts,
    /// `rulebook_check` by its number.
    pub alone: Counts,
    /// `rulebook_evaluate` by its number, on buffers as a check left them.
    pub left: Counts,
    /// The same on damaged buffers.
    pub damaged: Counts,
    /// Verdicts that the tableau confirmed.
    pub tableau: u64,
    pub seen: Seen,
}

impl Tally {
    pub fn add(&mut self, other: &Tally) {
        self.books += other.books;
        self.tableau += other.tableau;
        self.seen.add(&other.seen);
        let pairs = [
            (&mut self.into, &other.into),
            (&mut self.alone, &other.alone),
            (&mut self.left, &other.left),
            (&mut self.damaged, &other.damaged),
        ];
        for (ours, others) in pairs {
            ours.iter_mut().zip(others).for_each(|(one, more)| *one += more);
        }
    }

    /// Answers that never came, so that nothing was compared there. `rulebook_check` never gives
    /// 10 and an evaluation never 3 or 15.
    pub fn missing(&self) -> Vec<String> {
        let rows = [
            ("rulebook_check_into", &self.into, &[][..]),
            ("rulebook_check", &self.alone, &[10]),
            ("rulebook_evaluate, damaged", &self.damaged, &[3, 15]),
        ];
        let mut missing = Vec::new();
        for (name, counts, never) in rows {
            let open = NUMBERS.iter().filter(|number| !never.contains(*number));
            let none = open.filter(|number| counts[**number as usize] == 0);
            missing.extend(none.map(|number| format!("{name} never gave {number}")));
        }
        let traps = self.seen.rows().filter(|(_, books)| *books == 0);
        missing.extend(traps.map(|(name, _)| format!("no book with {name}")));
        missing
    }
}

impl fmt::Display for Tally {
    fn fmt(&self, f: &mut fmt::Formatter) -> fmt::Result {
        write!(f, "{:<28}", "agreeing calls by number")?;
        NUMBERS.iter().try_for_each(|number| write!(f, "{number:>9}"))?;
        let rows = [
            ("rulebook_check_into", &self.into),
            ("rulebook_check", &self.alone),
            ("rulebook_evaluate, as left", &self.left),
            ("rulebook_evaluate, damaged", &self.damaged),
        ];
        for (name, counts) in rows {
            write!(f, "\n{name:<28}")?;
            NUMBERS.iter().try_for_each(|number| write!(f, "{:>9}", counts[*number as usize]))?;
        }
        for (name, books) in self.seen.rows() {
            write!(f, "\n{name:<56}{books:>9} books")?;
        }
        write!(f, "\n{:<56}{:>9} books", "a verdict that the tableau confirmed", self.tableau)
    }
}
