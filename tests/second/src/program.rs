//! 01, "Books to try": what the program prints for its input.

use crate::answer::{check, Answer, Buffers};
use crate::structure::{read_back, Living};
use std::fmt::Write;

/// Bytes that the program takes at most; a longer input is judged by these.
pub const INPUT: usize = 8193;
/// The program's budget.
pub const BUDGET: u32 = 1_000_000;

/// The program's whole output for an input.
pub fn output(input: &[u8]) -> String {
    let input = &input[..input.len().min(INPUT)];
    let mut buffers = Buffers::default();
    let answer = check(input, BUDGET, buffers.lend());
    let living = match answer.number {
        1 => read_back(answer.totals, &buffers.states, &buffers.words, &buffers.values),
        _ => Vec::new(),
    };
    text(&answer, &living)
}

/// The lines of an answer, with the living states of a yes.
pub fn text(answer: &Answer, living: &[Living]) -> String {
    let verdict = match answer.number {
        1 => "yes",
        2 => "no",
        3 => "stopped",
        number => return format!("refused {number} {}\n", answer.place),
    };
    let totals = answer.totals;
    let mut text = format!(
        "size {} {} {}\n{verdict} {}\n",
        totals.states, totals.variables, totals.clauses, answer.count
    );
    for state in living {
        // Writing to a string can't fail.
        let _ = write!(text, "state {} {} {}", state.number, state.parent, state.relation);
        for atom in &state.atoms {
            let _ = write!(text, " {atom}");
        }
        text.push('\n');
    }
    text
}
