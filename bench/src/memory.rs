//! The memory of a check: book and build, working space, stack.

use crate::books::Case;
use crate::phases::Buffers;
use crate::stack::used;
use differential::calls::{self, Lying, Record};
use differential::calls::{CLAUSE_NUMBERS, EVALUATION_WORK, FIELDS, STATES, VARIABLES, WORK};
use second::book::{NODES, OFFSET, RECORD};
use std::hint::black_box;

/// Bytes that book and build may have.
const MOST: usize = 64 << 10;
/// The stack is measured within this budget; more nodes need no more of it.
const BUDGET: u32 = 1_000;

/// Prints it all.
pub fn print(cases: &[Case]) {
    let parts = [
        ("book", OFFSET as usize + RECORD * usize::from(NODES)),
        ("states", STATES * size_of::<Record>()),
        ("words", VARIABLES * size_of::<u32>()),
        ("clauses", CLAUSE_NUMBERS * size_of::<i16>()),
        ("values", VARIABLES * size_of::<u8>()),
    ];
    println!("\nbytes of book and build");
    parts.iter().for_each(|(name, bytes)| println!("{name:<24} {bytes:>8}"));
    let all: usize = parts.iter().map(|(_, bytes)| bytes).sum();
    println!("{:<24} {all:>8} of {MOST}", "together");
    println!("\nbytes besides");
    println!("{:<24} {:>8}", "answer", FIELDS * size_of::<u32>());
    println!("{:<24} {:>8}", "search's working space", WORK * size_of::<u16>());
    println!("{:<24} {EVALUATION_WORK:>8}", "evaluation's");
    stacks(cases);
}

/// The most stack that one call uses on any of the books.
fn stacks(cases: &[Case]) {
    let books = || cases.iter().flat_map(|case| &case.books);
    let most = |call: &mut dyn FnMut(&[u8])| {
        books().map(|book| used(|| call(black_box(book)))).max().unwrap_or_default()
    };
    let alone = most(&mut |book| {
        black_box(calls::check(book, BUDGET));
    });
    let mut buffers = Buffers::default();
    let into = most(&mut |book| {
        black_box(buffers.ours(book, BUDGET));
    });
    let (states, words, values) = ([[0; 3]; STATES], [0; VARIABLES], [0; VARIABLES]);
    let mut work = vec![0; EVALUATION_WORK];
    let evaluate = most(&mut |book| {
        let (states, words, values) = (&states[..], &words[..], &values[..]);
        let on = Lying { states, states_count: 1, words, variables_count: 1, values };
        black_box(calls::evaluate(book, on, &mut work));
    });
    println!("\nbytes of stack, the most on any of these books");
    println!("{:<24} {alone:>8}  with every buffer on it", "rulebook_check");
    println!("{:<24} {into:>8}", "rulebook_check_into");
    println!("{:<24} {evaluate:>8}", "rulebook_evaluate");
}
