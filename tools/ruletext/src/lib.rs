//! Rulebooks as readable text, and answers as pictures.
//!
//! A text becomes a book's bytes ([`text::read`], [`book::Book::bytes`]), bytes become a text that
//! gives the same bytes again ([`show::show`]), and what the check prints becomes a Graphviz
//! picture ([`answer::read`], [`graph::graph`]). Nothing here judges a book: that is the check's.

pub mod answer;
pub mod book;
pub mod fault;
pub mod formula;
pub mod graph;
pub mod header;
pub mod hex;
pub mod names;
pub mod node;
pub mod record;
pub mod sharing;
pub mod show;
pub mod text;
pub mod words;
