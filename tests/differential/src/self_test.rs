//! Shows that the comparison can fail: what is expected is changed by one bit at a time, in every
//! buffer and after every kind of answer, and each change must be noticed.

use crate::calls::EVALUATION_WORK;
use crate::compare::{Compare, Evaluating, Part, Tamper};
use crate::law::Call;
use crate::lending::{Buffer, Lending, Lengths, BUFFERS, ROOM};
use second::answer::Answer;
use second::generate::{binary_states, Draft};

/// A call whose answer has the given number.
struct Sample {
    number: u16,
    book: Vec<u8>,
    budget: u32,
    lengths: Lengths,
}

/// A call for each number of 01's table.
fn samples() -> Vec<Sample> {
    let mut either = Draft::new(1, 2);
    let (p, q) = (either.atom(0), either.atom(1));
    either.or(p, q);
    let mut clash = Draft::new(1, 1);
    let p = clash.atom(0);
    let not_p = clash.not(p);
    clash.and(p, not_p);
    let bytes = either.bytes(&[]);
    let changed = |at: usize, byte: u8| {
        let mut bytes = bytes.clone();
        bytes[at] = byte;
        bytes
    };
    let sized = |number, book, budget| {
        let lengths = Lengths::sizes(ROOM);
        Sample { number, book, budget, lengths }
    };
    let short = Lengths::sizes(0).short_of(Buffer::Work, 1);
    vec![
        sized(1, bytes.clone(), 2),
        sized(2, clash.bytes(&[]), 1),
        sized(3, bytes.clone(), 1),
        Sample { number: 10, book: bytes.clone(), budget: 2, lengths: short },
        sized(11, bytes[..15].to_vec(), 2),
        sized(12, changed(0, 0), 2),
        sized(13, changed(8, 17), 2),
        sized(14, changed(16, 8), 2),
        sized(15, binary_states(2).bytes(&[]), 2),
    ]
}

/// What was tried, and what of it nobody noticed.
#[derive(Default)]
pub struct Report {
    pub tried: usize,
    pub missed: Vec<String>,
}

impl Report {
    fn note(&mut self, noticed: bool, what: impl FnOnce() -> String) {
        self.tried += 1;
        if !noticed {
            self.missed.push(what());
        }
    }
}

/// The first and the last cell within the size, and the first and the last beyond it.
fn cells(buffer: Buffer, whole: usize) -> [usize; 4] {
    [0, buffer.size() - 1, buffer.size(), whole - 1]
}

fn length(lending: &Lending, buffer: Buffer) -> usize {
    match buffer {
        Buffer::States => lending.states.len(),
        Buffer::Words => lending.words.len(),
        Buffer::Clauses => lending.clauses.len(),
        Buffer::Values => lending.values.len(),
        Buffer::Work => lending.work.len(),
        Buffer::Answer => lending.answer.len(),
    }
}

/// Tries everything.
pub fn run() -> Report {
    let mut report = Report::default();
    let mut compare = Compare::default();
    for sample in samples() {
        untampered(&mut compare, &sample, &mut report);
        tampered(&mut compare, &sample, &mut report);
        unlawful(&mut compare, &sample, &mut report);
    }
    evaluations(&mut compare, &mut report);
    report
}

/// The sample agrees as it is, and has its number; else nothing below says anything.
fn untampered(compare: &mut Compare, sample: &Sample, report: &mut Report) {
    let came = compare.into(&sample.book, sample.budget, sample.lengths);
    let number = came.map(|answer| answer.number);
    report.note(number == Ok(sample.number), || format!("{}: {number:?}", sample.number));
}

/// Another number expected, and another bit in a cell of each buffer.
fn tampered(compare: &mut Compare, sample: &Sample, report: &mut Report) {
    let mut try_one = |tamper, part| {
        compare.tamper = Some(tamper);
        let came = match tamper {
            Tamper::Alone => compare.alone(&sample.book, sample.budget, sample.number).err(),
            _ => compare.into(&sample.book, sample.budget, sample.lengths).err(),
        };
        compare.tamper = None;
        let noticed = came.is_some_and(|fault| fault.part == part);
        report.note(noticed, || format!("{}: {tamper:?}", sample.number));
    };
    try_one(Tamper::Number, Part::Number);
    if sample.number != 10 {
        try_one(Tamper::Alone, Part::Alone);
    }
    let whole = Compare::default().ours;
    for buffer in BUFFERS {
        for (bit, cell) in cells(buffer, length(&whole, buffer)).into_iter().enumerate() {
            try_one(Tamper::Cell(buffer, cell, 7 * bit), Part::Lent(buffer));
        }
    }
}

/// 01's table by itself notices every cell that it fixes: all of them after a refusal, and after a
/// verdict the unused and the guarded ones.
fn unlawful(compare: &mut Compare, sample: &Sample, report: &mut Report) {
    let before = compare.next_fill().clone();
    if compare.into(&sample.book, sample.budget, sample.lengths).is_err() {
        return report.note(false, || format!("{}: no call to change", sample.number));
    }
    let mut after = compare.ours.clone();
    for buffer in BUFFERS {
        for cell in cells(buffer, length(&before, buffer)) {
            if sample.number <= 3 && cell == 0 && buffer != Buffer::Answer {
                continue;
            }
            after.flip(buffer, cell, 0);
            let call = Call {
                before: &before,
                after: &after,
                lengths: &sample.lengths,
                budget: sample.budget,
                number: sample.number.into(),
            };
            let noticed = call.keeps().is_err();
            report.note(noticed, || format!("{}: lawful {buffer:?}[{cell}]", sample.number));
            after.flip(buffer, cell, 0);
        }
    }
}

/// Another judgement expected, another byte in the working space, another verdict than the
/// tableau's.
fn evaluations(compare: &mut Compare, report: &mut Report) {
    for sample in samples().into_iter().take(3) {
        let Ok(answer) = compare.into(&sample.book, sample.budget, sample.lengths) else {
            return report.note(false, || "no buffers to evaluate".into());
        };
        let work = [0, EVALUATION_WORK - 1, EVALUATION_WORK].map(Tamper::EvaluationWork);
        let judgement = [(Tamper::Judgement, Part::Judgement)];
        for (tamper, part) in judgement.into_iter().chain(work.map(|at| (at, Part::EvaluationWork)))
        {
            compare.tamper = Some(tamper);
            let came = compare.evaluate(&sample.book, Evaluating::left(&answer, 0xA5)).err();
            compare.tamper = None;
            let noticed = came.is_some_and(|fault| fault.part == part);
            report.note(noticed, || format!("{}: {tamper:?}", sample.number));
        }
        let wrong = Answer { number: if answer.number == 2 { 1 } else { 2 }, ..answer };
        let noticed = compare.tableau(&sample.book, &wrong).is_err();
        report.note(noticed, || format!("{}: tableau", sample.number));
    }
}
