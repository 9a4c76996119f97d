//! The parts of a check, told apart by calls alone: both programs get the same bytes, budgets and
//! buffers, and each time is that of a whole call.

use crate::books::Case;
use crate::timing::{in_turn, Times};
use differential::calls;
use differential::lending::{Lending, Lengths};
use second::answer::{self, Answer};
use second::book::RECORD;
use second::generate::Rng;
use std::hint::black_box;

/// Times of one part, ours and the second program's.
pub type Pair = [Times; 2];

/// A part of a check, and the calls that it is a part of.
#[derive(Clone, Copy)]
pub struct Part {
    pub times: Pair,
    pub of: Pair,
}

impl Part {
    /// What is left of a call without another one.
    fn between(call: Pair, without: Pair) -> Part {
        let times = [call[0].without(without[0]), call[1].without(without[1])];
        Part { times, of: call }
    }

    fn all_of(call: Pair) -> Part {
        Part { times: call, of: call }
    }
}

/// What a case came to.
pub struct Measured {
    pub name: &'static str,
    pub books: usize,
    pub nodes: usize,
    /// The last book's answer.
    pub answer: Answer,
    /// The search nodes of all books.
    pub entered: u64,
    pub reading: Part,
    pub building: Part,
    pub searching: Part,
    pub whole: Part,
}

/// The book with its last node of kind 8: it is read to the end and refused there with 14.
fn refused_last(book: &[u8]) -> Vec<u8> {
    let mut bytes = book.to_vec();
    let at = bytes.len() - RECORD;
    bytes[at] = 8;
    bytes
}

/// One set of buffers, lent to both.
pub struct Buffers {
    lending: Lending,
    lengths: Lengths,
}

impl Default for Buffers {
    fn default() -> Buffers {
        Buffers { lending: Lending::garbage(&mut Rng::new(0)), lengths: Lengths::sizes(0) }
    }
}

impl Buffers {
    pub fn ours(&mut self, book: &[u8], budget: u32) -> u32 {
        calls::check_into(book, budget, self.lending.lend(&self.lengths))
    }

    fn second(&mut self, book: &[u8], budget: u32) -> Answer {
        answer::check(book, budget, self.lending.lend_second(&self.lengths))
    }
}

/// Times the check of some books one after the other.
fn time(books: &[Vec<u8>], budget: u32) -> Pair {
    let (mut one, mut other) = (Buffers::default(), Buffers::default());
    let mut ours = || {
        for book in books {
            black_box(one.ours(black_box(book), budget));
        }
    };
    let mut second = || {
        for book in books {
            black_box(other.second(black_box(book), budget));
        }
    };
    in_turn([&mut ours, &mut second])
}

/// Measures a case; an error if the programs' numbers differ.
pub fn measure(case: &Case) -> Result<Measured, String> {
    let mut buffers = Buffers::default();
    let mut answer = Answer::default();
    let mut entered = 0;
    for book in &case.books {
        answer = buffers.second(book, case.budget);
        let number = buffers.ours(book, case.budget);
        if number != u32::from(answer.number) {
            let (name, beside) = (case.name, answer.number);
            return Err(format!("the programs disagree on {name}: {number} beside {beside}"));
        }
        entered += u64::from(answer.count);
    }
    let late: Vec<Vec<u8>> = case.books.iter().map(|book| refused_last(book)).collect();
    let reading = time(&late, case.budget);
    let at_none = time(&case.books, 0);
    let whole = time(&case.books, case.budget);
    Ok(Measured {
        name: case.name,
        books: case.books.len(),
        nodes: case
            .books
            .iter()
            .map(|book| usize::from(book[4]) + 256 * usize::from(book[5]))
            .sum(),
        answer,
        entered,
        reading: Part::all_of(reading),
        building: Part::between(at_none, reading),
        searching: Part::between(whole, at_none),
        whole: Part::all_of(whole),
    })
}
