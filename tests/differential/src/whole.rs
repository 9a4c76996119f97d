//! Everything that is compared for one book: budgets around C, buffers one by one too short, the
//! number alone, evaluations on what was left and on damaged buffers, and the tableau.

use crate::compare::{Compare, Evaluating, Fault, Part};
use crate::damage;
use crate::lending::{Lengths, BUFFERS, ROOM};
use second::answer::Answer;
use second::book::parse;
use second::build::Totals;
use second::generate::Rng;
use second::tableau::{decide, Verdict};

/// The first budget at most, and at least.
const BUDGET: usize = 2_000;
const LEAST: usize = 5;
/// Clauses times the first budget at most, so that no book runs long; in one book of sixteen more.
const EFFORT: usize = 20_000;
const MORE_EFFORT: usize = 200_000;
/// From so many clauses on not every budget is tried on every book.
const HEAVY: usize = 200;
/// Nodes of a book that the tableau is asked about, and its steps.
const SMALL: usize = 60;
const STEPS: u64 = 5_000;

fn first_budget(totals: Totals, rng: &mut Rng) -> u32 {
    let effort = if rng.chance(1, 16) { MORE_EFFORT } else { EFFORT };
    (effort / totals.clauses.max(1)).clamp(LEAST, BUDGET) as u32
}

impl Compare {
    /// Compares all of it. The generator only chooses among what is compared. The book's bytes may
    /// begin at any address, and stay as they are.
    pub fn book(&mut self, book: &[u8], rng: &mut Rng) -> Result<(), Fault> {
        self.choose_fill(rng.below(8));
        let before = vec![0xEE; rng.below(8)];
        let held = [&before[..], book, &[0xEE; 8]].concat();
        let kept = held.clone();
        self.bytes(&held[before.len()..][..book.len()], rng)?;
        if held != kept {
            let text = "the book's bytes changed".into();
            return Err(Fault { part: Part::Book, budget: 0, text });
        }
        self.tally.books += 1;
        Ok(())
    }

    fn bytes(&mut self, book: &[u8], rng: &mut Rng) -> Result<(), Fault> {
        let lengths = Lengths::sizes(rng.below(ROOM + 1));
        let at_none = self.into(book, 0, lengths)?;
        if at_none.number == 3 {
            let first = first_budget(at_none.totals, rng);
            let last = self.budgets(book, first, lengths, rng)?;
            self.tally.seen.look(&self.ours, &last);
            self.evaluations(book, &last, rng)?;
            if rng.chance(1, 4) {
                self.tableau(book, &last)?;
            }
        } else {
            self.refused(book, &at_none, lengths, rng)?;
            if rng.chance(1, 4) {
                let on = damage::invent(&mut self.ours, Evaluating::left(&at_none, 0x5A), rng);
                self.evaluate(book, on)?;
            }
        }
        self.short(book, rng)
    }

    /// An accepted book, with budget 0 behind it: the first budget; then C − 1, C and C + 1 or the
    /// largest. The buffers are left by the last of them.
    fn budgets(
        &mut self,
        book: &[u8],
        first: u32,
        lengths: Lengths,
        rng: &mut Rng,
    ) -> Result<Answer, Fault> {
        let mut last = self.into(book, first, lengths)?;
        let heavy = last.totals.clauses >= HEAVY;
        let mut tried = vec![(0, 3), (first, last.number)];
        if last.number != 3 {
            let c = last.count;
            let beyond = if rng.chance(1, 2) { c + 1 } else { u32::MAX };
            let around = [c - 1, c, beyond];
            let one = rng.below(around.len());
            for budget in if heavy { &around[one..=one] } else { &around } {
                if tried.iter().all(|(before, _)| before != budget) {
                    last = self.into(book, *budget, lengths)?;
                    tried.push((*budget, last.number));
                }
            }
        }
        if !heavy || rng.chance(1, 4) {
            let (budget, number) = tried[rng.below(tried.len())];
            self.alone(book, budget, number)?;
        }
        Ok(last)
    }

    /// A refused book: the refusal doesn't depend on the budget.
    fn refused(
        &mut self,
        book: &[u8],
        answer: &Answer,
        lengths: Lengths,
        rng: &mut Rng,
    ) -> Result<(), Fault> {
        let budget = if rng.chance(1, 2) { u32::MAX } else { rng.draw() as u32 };
        self.alone(book, budget, answer.number)?;
        if answer.number != 15 || rng.chance(1, 4) {
            self.into(book, budget, lengths)?;
        }
        Ok(())
    }

    /// One of the buffers is too short, mostly by one cell.
    fn short(&mut self, book: &[u8], rng: &mut Rng) -> Result<(), Fault> {
        let buffer = BUFFERS[rng.below(BUFFERS.len())];
        let by = if rng.chance(7, 8) { 1 } else { rng.between(1, buffer.size()) };
        let lengths = Lengths::sizes(rng.below(ROOM + 1)).short_of(buffer, by);
        self.into(book, rng.draw() as u32, lengths).map(|_| ())
    }

    /// On the buffers as a verdict left them, then damaged. A yes is true at state 1.
    fn evaluations(&mut self, book: &[u8], left: &Answer, rng: &mut Rng) -> Result<(), Fault> {
        let on = Evaluating::left(left, rng.draw() as u8);
        if left.number == 1 || rng.chance(1, 4) {
            let number = self.evaluate(book, on)?;
            if left.number == 1 && number != 1 {
                let text = format!("a yes that evaluates to {number}");
                return Err(Fault { part: Part::Judgement, budget: left.count, text });
            }
        }
        if rng.chance(1, 2) {
            let on = damage::damage(&mut self.ours, on, rng);
            self.evaluate(book, on)?;
        }
        Ok(())
    }

    /// The verdict on a small book.
    pub fn tableau(&mut self, book: &[u8], left: &Answer) -> Result<(), Fault> {
        if left.number == 3 {
            return Ok(());
        }
        let Some(small) = parse(book).ok().filter(|book| book.nodes().len() <= SMALL) else {
            return Ok(());
        };
        match (decide(&small, STEPS), left.number) {
            (Verdict::Unknown, _) => {}
            (Verdict::Satisfiable, 1) | (Verdict::Unsatisfiable, 2) => self.tally.tableau += 1,
            (verdict, number) => {
                let text = format!("{number}, but the tableau says {verdict:?}");
                return Err(Fault { part: Part::Tableau, budget: left.count, text });
            }
        }
        Ok(())
    }
}
