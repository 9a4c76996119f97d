//! The calls that libhost.a exports, each slice as a pointer and a length, and the sizes that 01
//! and the calls state for what is lent. The only unsafe code of this crate.
#![allow(unsafe_code)]

/// Records of the lent table of states.
pub const STATES: usize = 512;
/// Variable words, and values.
pub const VARIABLES: usize = 4095;
/// Clauses, three numbers each.
pub const CLAUSES: usize = 5000;
/// Clause numbers.
pub const CLAUSE_NUMBERS: usize = 3 * CLAUSES;
/// Numbers of working space that the search is lent: one for each literal, one for the unused
/// places of clauses, one for each clause number.
pub const WORK: usize = 2 * VARIABLES + 1 + CLAUSE_NUMBERS;
/// The answer's fields: number, place, states, variables, clauses, count.
pub const FIELDS: usize = 6;
/// Bytes of working space that an evaluation is lent: for each state a byte for its life, for
/// each of 256 atoms and for each of 512 nodes.
pub const EVALUATION_WORK: usize = (1 + 256 + 512) * STATES;

/// A state record: parent, relation, making variable.
pub type Record = [u16; 3];

/// A state record as the calls take it.
#[repr(C)]
pub struct State {
    pub parent: u16,
    pub relation: u16,
    pub maker: u16,
}

const _: () = assert!(size_of::<State>() == size_of::<Record>());
const _: () = assert!(align_of::<State>() == align_of::<Record>());

mod raw {
    use super::State;

    extern "C" {
        pub fn rulebook_check(book: *const u8, book_len: usize, budget: u32) -> u32;

        pub fn rulebook_check_into(
            book: *const u8,
            book_len: usize,
            budget: u32,
            states: *mut State,
            states_len: usize,
            words: *mut u32,
            words_len: usize,
            clauses: *mut i16,
            clauses_len: usize,
            values: *mut u8,
            values_len: usize,
            work: *mut u16,
            work_len: usize,
            answer: *mut u32,
            answer_len: usize,
        ) -> u32;

        pub fn rulebook_evaluate(
            book: *const u8,
            book_len: usize,
            states: *const State,
            states_len: usize,
            states_count: usize,
            words: *const u32,
            words_len: usize,
            variables_count: usize,
            values: *const u8,
            values_len: usize,
            work: *mut u8,
            work_len: usize,
        ) -> u32;
    }
}

/// What a check is lent.
pub struct Lent<'a> {
    pub states: &'a mut [Record],
    pub words: &'a mut [u32],
    pub clauses: &'a mut [i16],
    pub values: &'a mut [u8],
    pub work: &'a mut [u16],
    pub answer: &'a mut [u32],
}

/// `rulebook_check`: the answer's number.
pub fn check(book: &[u8], budget: u32) -> u32 {
    // SAFETY: the pointer and the length are those of a slice.
    unsafe { raw::rulebook_check(book.as_ptr(), book.len(), budget) }
}

/// `rulebook_check_into`: the number, and everything in what is lent.
pub fn check_into(book: &[u8], budget: u32, lent: Lent) -> u32 {
    let Lent { states, words, clauses, values, work, answer } = lent;
    // SAFETY: each pointer and length are those of a slice; the mutable ones are apart. A record
    // has the size and the alignment of a state.
    unsafe {
        raw::rulebook_check_into(
            book.as_ptr(),
            book.len(),
            budget,
            states.as_mut_ptr().cast(),
            states.len(),
            words.as_mut_ptr(),
            words.len(),
            clauses.as_mut_ptr(),
            clauses.len(),
            values.as_mut_ptr(),
            values.len(),
            work.as_mut_ptr(),
            work.len(),
            answer.as_mut_ptr(),
            answer.len(),
        )
    }
}

/// A structure as it lies in buffers, with the totals of its build.
#[derive(Clone, Copy)]
pub struct Lying<'a> {
    pub states: &'a [Record],
    pub states_count: usize,
    pub words: &'a [u32],
    pub variables_count: usize,
    pub values: &'a [u8],
}

/// `rulebook_evaluate`: 1 if the book is true at state 1, 2 if not, or a refusal.
pub fn evaluate(book: &[u8], on: Lying, work: &mut [u8]) -> u32 {
    // SAFETY: each pointer and length are those of a slice, and `work` is apart from the others.
    unsafe {
        raw::rulebook_evaluate(
            book.as_ptr(),
            book.len(),
            on.states.as_ptr().cast(),
            on.states.len(),
            on.states_count,
            on.words.as_ptr(),
            on.words.len(),
            on.variables_count,
            on.values.as_ptr(),
            on.values.len(),
            work.as_mut_ptr(),
            work.len(),
        )
    }
}
