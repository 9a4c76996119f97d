//! One call of the library beside what the second program says of it.

use crate::calls::{self, Lying, EVALUATION_WORK, FIELDS, WORK};
use crate::law::Call;
use crate::lending::{Buffer, Lending, Lengths};
use crate::raw;
use crate::tally::{Counts, Tally};
use second::answer::{self, Answer, SHORT_BUFFER};
use second::generate::Rng;

/// Sets of garbage that the buffers hold before a call.
const FILLS: usize = 4;
/// Bytes beyond the lent working space of an evaluation.
const GUARD: usize = 64;

/// What did not agree, and with which budget.
#[derive(Clone, Debug, PartialEq, Eq)]
pub struct Fault {
    pub part: Part,
    pub budget: u32,
    pub text: String,
}

/// What a fault is about.
#[derive(Clone, Copy, Debug, PartialEq, Eq)]
pub enum Part {
    Book,
    Number,
    Lent(Buffer),
    Law,
    Alone,
    Judgement,
    EvaluationWork,
    Tableau,
}

/// A change of what is expected, to see that it is noticed.
#[derive(Clone, Copy, Debug, PartialEq, Eq)]
pub enum Tamper {
    Number,
    Cell(Buffer, usize, usize),
    Alone,
    Judgement,
    EvaluationWork(usize),
}

/// The buffers of both programs, and what has agreed so far.
pub struct Compare {
    fills: Vec<Lending>,
    calls: usize,
    pub ours: Lending,
    expected: Lending,
    work: Vec<u8>,
    pub tally: Tally,
    pub tamper: Option<Tamper>,
}

impl Default for Compare {
    fn default() -> Compare {
        let mut rng = Rng::new(0xF111);
        let fills: Vec<Lending> = (0..FILLS).map(|_| Lending::garbage(&mut rng)).collect();
        Compare {
            calls: 0,
            ours: fills[0].clone(),
            expected: fills[0].clone(),
            fills,
            work: vec![0; EVALUATION_WORK + GUARD],
            tally: Tally::default(),
            tamper: None,
        }
    }
}

/// The answer's fields in the order of the lent array.
fn fields(answer: &Answer) -> [u32; FIELDS] {
    let totals = answer.totals;
    let [states, variables, clauses] =
        [totals.states, totals.variables, totals.clauses].map(|total| total as u32);
    [answer.number.into(), answer.place.into(), states, variables, clauses, answer.count]
}

/// What the call has to leave, by the second program: its answer and its four buffers; the working
/// space "is zero afterwards, but untouched by 10 to 14"; the fields, if their array is long
/// enough.
fn expect(lending: &mut Lending, book: &[u8], budget: u32, lengths: &Lengths) -> Answer {
    let short = Answer { number: SHORT_BUFFER, ..Answer::default() };
    if !lengths.meets(Buffer::Answer) {
        return short;
    }
    let answer = match lengths.meets(Buffer::Work) {
        true => answer::check(book, budget, lending.lend_second(lengths)),
        false => short,
    };
    if !(10..=14).contains(&answer.number) {
        lending.work[..WORK].fill(0);
    }
    lending.answer[..FIELDS].copy_from_slice(&fields(&answer));
    answer
}

fn count(counts: &mut Counts, number: u32) {
    if let Some(count) = counts.get_mut(number as usize) {
        *count += 1;
    }
}

impl Compare {
    /// Chooses what the buffers hold before the next check.
    pub fn choose_fill(&mut self, choice: usize) {
        self.calls = choice;
    }

    /// What the buffers hold before the next check.
    pub fn next_fill(&self) -> &Lending {
        &self.fills[self.calls % FILLS]
    }

    /// `rulebook_check_into` over garbage: the number, the fields and every cell of every buffer,
    /// guards included; then 01's table by itself.
    pub fn into(&mut self, book: &[u8], budget: u32, lengths: Lengths) -> Result<Answer, Fault> {
        let fault = |part, text| Err(Fault { part, budget, text });
        let before = &self.fills[self.calls % FILLS];
        self.calls += 1;
        self.ours.copy(before);
        self.expected.copy(before);
        let number = calls::check_into(book, budget, self.ours.lend(&lengths));
        let answer = expect(&mut self.expected, book, budget, &lengths);
        let mut wanted = u32::from(answer.number);
        match self.tamper {
            Some(Tamper::Number) => wanted ^= 1,
            Some(Tamper::Cell(buffer, cell, bit)) => self.expected.flip(buffer, cell, bit),
            _ => {}
        }
        if number != wanted {
            return fault(Part::Number, format!("returned {number}, expected {wanted}"));
        }
        if let Some(found) = self.ours.difference(&self.expected) {
            return fault(Part::Lent(found.buffer), found.text);
        }
        let call = Call { before, after: &self.ours, lengths: &lengths, budget, number };
        if let Err(rule) = call.keeps() {
            return fault(Part::Law, format!("{number} breaks: {rule}"));
        }
        count(&mut self.tally.into, number);
        Ok(answer)
    }

    /// `rulebook_check`, which never gives 10.
    pub fn alone(&mut self, book: &[u8], budget: u32, number: u16) -> Result<(), Fault> {
        let wanted = u32::from(number) ^ u32::from(self.tamper == Some(Tamper::Alone));
        let number = calls::check(book, budget);
        if number != wanted {
            let text = format!("rulebook_check returned {number}, expected {wanted}");
            return Err(Fault { part: Part::Alone, budget, text });
        }
        count(&mut self.tally.alone, number);
        Ok(())
    }

    /// `rulebook_evaluate` on the buffers as they stand in `ours`, lent as long as `lengths` says,
    /// with so many bytes of working space; `damaged` says which count it adds to.
    pub fn evaluate(&mut self, book: &[u8], on: Evaluating) -> Result<u32, Fault> {
        let fault = |part, text| Err(Fault { part, budget: 0, text });
        let lying = on.lying(&self.ours);
        let garbage = on.garbage;
        self.work.fill(garbage);
        let number = calls::evaluate(book, lying, &mut self.work[..on.work]);
        let mut wanted = raw::judge(book, lying, on.work);
        match self.tamper {
            Some(Tamper::Judgement) => wanted ^= 3,
            Some(Tamper::EvaluationWork(at)) => self.work[at] ^= 1,
            _ => {}
        }
        if number != wanted {
            let text = format!("rulebook_evaluate returned {number}, expected {wanted}");
            return fault(Part::Judgement, text);
        }
        let cleared = if number <= 2 { EVALUATION_WORK } else { 0 };
        let (zero, kept) = self.work.split_at(cleared);
        let all = |cells: &[u8], value| cells.iter().fold(true, |all, cell| all & (*cell == value));
        if !all(zero, 0) || !all(kept, garbage) {
            let text = format!("the working space of an evaluation is wrong after {number}");
            return fault(Part::EvaluationWork, text);
        }
        let counts = if on.damaged { &mut self.tally.damaged } else { &mut self.tally.left };
        count(counts, number);
        Ok(number)
    }
}

/// How an evaluation is called.
#[derive(Clone, Copy, Debug)]
pub struct Evaluating {
    pub states: usize,
    pub variables: usize,
    pub lengths: Lengths,
    pub work: usize,
    pub garbage: u8,
    pub damaged: bool,
}

impl Evaluating {
    /// With the totals of a build, the stated sizes and a garbage byte in the working space.
    pub fn left(answer: &Answer, garbage: u8) -> Evaluating {
        Evaluating {
            states: answer.totals.states,
            variables: answer.totals.variables,
            lengths: Lengths::sizes(0),
            work: EVALUATION_WORK,
            garbage,
            damaged: false,
        }
    }

    fn lying<'a>(&self, lending: &'a Lending) -> Lying<'a> {
        Lying {
            states: &lending.states[..self.lengths.of(Buffer::States)],
            states_count: self.states,
            words: &lending.words[..self.lengths.of(Buffer::Words)],
            variables_count: self.variables,
            values: &lending.values[..self.lengths.of(Buffer::Values)],
        }
    }
}
