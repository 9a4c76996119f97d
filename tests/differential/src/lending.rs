//! Buffers to lend, with guard cells beyond what is lent, and the differences between two sets.

use crate::calls::{self, Record, CLAUSE_NUMBERS, FIELDS, STATES, VARIABLES, WORK};
use second::generate::Rng;
use std::fmt::Debug;

/// Cells that may be lent beyond a stated size.
pub const ROOM: usize = 8;
/// Cells beyond everything that is lent.
const GUARD: usize = 64;

/// The buffers that a check is lent.
#[derive(Clone, Copy, Debug, PartialEq, Eq)]
pub enum Buffer {
    States,
    Words,
    Clauses,
    Values,
    Work,
    Answer,
}

/// All of them, in the order of the call.
pub const BUFFERS: [Buffer; 6] =
    [Buffer::States, Buffer::Words, Buffer::Clauses, Buffer::Values, Buffer::Work, Buffer::Answer];

impl Buffer {
    /// The stated size in cells; a cell of the states is a record.
    pub fn size(self) -> usize {
        match self {
            Buffer::States => STATES,
            Buffer::Words | Buffer::Values => VARIABLES,
            Buffer::Clauses => CLAUSE_NUMBERS,
            Buffer::Work => WORK,
            Buffer::Answer => FIELDS,
        }
    }
}

/// How many cells of each buffer are lent.
#[derive(Clone, Copy, Debug, PartialEq, Eq)]
pub struct Lengths([usize; BUFFERS.len()]);

impl Lengths {
    /// The stated sizes and `more` cells beyond each, at most [`ROOM`].
    pub fn sizes(more: usize) -> Lengths {
        Lengths(BUFFERS.map(|buffer| buffer.size() + more.min(ROOM)))
    }

    /// The same with one buffer shorter than its size by so many cells.
    pub fn short_of(mut self, buffer: Buffer, by: usize) -> Lengths {
        self.0[buffer as usize] = buffer.size() - by.clamp(1, buffer.size());
        self
    }

    pub fn of(&self, buffer: Buffer) -> usize {
        self.0[buffer as usize]
    }

    /// Whether a buffer is lent as long as its size.
    pub fn meets(&self, buffer: Buffer) -> bool {
        self.of(buffer) >= buffer.size()
    }
}

/// The buffers with their guards.
#[derive(Clone, Debug, PartialEq, Eq)]
pub struct Lending {
    pub states: Vec<Record>,
    pub words: Vec<u32>,
    pub clauses: Vec<i16>,
    pub values: Vec<u8>,
    pub work: Vec<u16>,
    pub answer: Vec<u32>,
}

/// Where two sets of buffers differ first.
#[derive(Clone, Debug, PartialEq, Eq)]
pub struct Difference {
    pub buffer: Buffer,
    pub text: String,
}

impl Lending {
    /// Every cell, those of the guards too, from the generator.
    pub fn garbage(rng: &mut Rng) -> Lending {
        fn cells<T>(buffer: Buffer, mut cell: impl FnMut() -> T) -> Vec<T> {
            (0..buffer.size() + ROOM + GUARD).map(|_| cell()).collect()
        }
        Lending {
            states: cells(Buffer::States, || [(); 3].map(|()| rng.draw() as u16)),
            words: cells(Buffer::Words, || rng.draw() as u32),
            clauses: cells(Buffer::Clauses, || rng.draw() as i16),
            values: cells(Buffer::Values, || rng.draw() as u8),
            work: cells(Buffer::Work, || rng.draw() as u16),
            answer: cells(Buffer::Answer, || rng.draw() as u32),
        }
    }

    pub fn copy(&mut self, from: &Lending) {
        self.states.copy_from_slice(&from.states);
        self.words.copy_from_slice(&from.words);
        self.clauses.copy_from_slice(&from.clauses);
        self.values.copy_from_slice(&from.values);
        self.work.copy_from_slice(&from.work);
        self.answer.copy_from_slice(&from.answer);
    }

    /// Lends the first cells of each buffer.
    pub fn lend(&mut self, lengths: &Lengths) -> calls::Lent<'_> {
        calls::Lent {
            states: &mut self.states[..lengths.of(Buffer::States)],
            words: &mut self.words[..lengths.of(Buffer::Words)],
            clauses: &mut self.clauses[..lengths.of(Buffer::Clauses)],
            values: &mut self.values[..lengths.of(Buffer::Values)],
            work: &mut self.work[..lengths.of(Buffer::Work)],
            answer: &mut self.answer[..lengths.of(Buffer::Answer)],
        }
    }

    /// Lends the four buffers of 01 to the second program.
    pub fn lend_second(&mut self, lengths: &Lengths) -> second::answer::Lent<'_> {
        second::answer::Lent {
            states: self.states[..lengths.of(Buffer::States)].as_flattened_mut(),
            words: &mut self.words[..lengths.of(Buffer::Words)],
            clauses: &mut self.clauses[..lengths.of(Buffer::Clauses)],
            values: &mut self.values[..lengths.of(Buffer::Values)],
        }
    }

    /// The first cell, guards included, in which these buffers are not the expected ones.
    pub fn difference(&self, expected: &Lending) -> Option<Difference> {
        differ(Buffer::States, &self.states, &expected.states)
            .or_else(|| differ(Buffer::Words, &self.words, &expected.words))
            .or_else(|| differ(Buffer::Clauses, &self.clauses, &expected.clauses))
            .or_else(|| differ(Buffer::Values, &self.values, &expected.values))
            .or_else(|| differ(Buffer::Work, &self.work, &expected.work))
            .or_else(|| differ(Buffer::Answer, &self.answer, &expected.answer))
    }

    /// Flips one bit of a cell.
    pub fn flip(&mut self, buffer: Buffer, cell: usize, bit: usize) {
        match buffer {
            Buffer::States => self.states[cell][bit / 16 % 3] ^= 1 << (bit % 16),
            Buffer::Words => self.words[cell] ^= 1 << (bit % 32),
            Buffer::Clauses => self.clauses[cell] ^= 1 << (bit % 16),
            Buffer::Values => self.values[cell] ^= 1 << (bit % 8),
            Buffer::Work => self.work[cell] ^= 1 << (bit % 16),
            Buffer::Answer => self.answer[cell] ^= 1 << (bit % 32),
        }
    }
}

fn differ<T: PartialEq + Debug>(buffer: Buffer, ours: &[T], expected: &[T]) -> Option<Difference> {
    if ours == expected {
        return None;
    }
    let at = ours.iter().zip(expected).position(|(one, other)| one != other);
    let text = match at {
        Some(at) => format!("{buffer:?}[{at}] is {:?}, expected {:?}", ours[at], expected[at]),
        None => format!("{buffer:?} differ in length"),
    };
    Some(Difference { buffer, text })
}

#[cfg(test)]
mod tests {
    use super::*;

    #[test]
    fn every_flipped_bit_is_seen() {
        let whole = Lending::garbage(&mut Rng::new(1));
        let mut other = whole.clone();
        assert_eq!(other.difference(&whole), None);
        for buffer in BUFFERS {
            for cell in [0, buffer.size() - 1, buffer.size(), buffer.size() + ROOM + GUARD - 1] {
                for bit in 0..48 {
                    other.flip(buffer, cell, bit);
                    assert_eq!(other.difference(&whole).map(|found| found.buffer), Some(buffer));
                    other.flip(buffer, cell, bit);
                }
            }
        }
    }

    #[test]
    fn a_short_buffer_is_short_by_itself() {
        let lengths = Lengths::sizes(3).short_of(Buffer::Clauses, 1);
        assert_eq!(lengths.of(Buffer::Clauses), CLAUSE_NUMBERS - 1);
        let met = BUFFERS.iter().filter(|buffer| lengths.meets(**buffer)).count();
        assert_eq!(met, BUFFERS.len() - 1);
    }
}
