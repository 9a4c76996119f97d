//! Books for tests (01, "The rulebook" and the limits of "Answers by number"): seeded random
//! shapes, families at the build's limits, damaged bytes, and random Kripke structures.

mod damage;
mod draft;
mod limits;
mod rng;
mod shapes;
mod structures;

pub use damage::{extend, flip_bits, header_damage, offset_books, record_damage, truncate};
pub use damage::{size_books, Damaged};
pub use draft::Draft;
pub use limits::{
    at_limits, binary_states, chain_states, fan_clauses, fan_states, fan_variables, pad_to,
    random_at, Limit, LimitBook,
};
pub use rng::Rng;
pub use shapes::{any_book, book, note, Shape, SHAPES};
pub use structures::structure;
