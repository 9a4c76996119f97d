//! The check in libhost.a against the independent second program: every field of the answer and
//! every cell of every buffer, for random, damaged and oversized books.

pub mod calls;
pub mod compare;
mod damage;
pub mod law;
pub mod lending;
pub mod raw;
pub mod run;
pub mod seen;
pub mod self_test;
pub mod stream;
pub mod tally;
mod whole;
