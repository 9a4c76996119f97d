//! An independent second implementation of the rulebook check.
//!
//! Written from the documents alone: 01 (the scope with its exact rules), 02 (the orders after it)
//! and 000 (the logic K(m) and its Km2SAT encoding). Names follow 01: book, node, state, key, word,
//! ask, clause, living, maker. The main product is compared with what stands here.

pub mod answer;
pub mod book;
pub mod build;
pub mod generate;
pub mod program;
pub mod scanning;
pub mod search;
pub mod structure;
pub mod tableau;
pub mod truth;
