//! Random Kripke structures (000, section 2).

use super::Rng;
use crate::structure::Kripke;

/// A structure with the given number of states. How full its relations and atoms are is random,
/// and loops and shared successors occur.
pub fn structure(rng: &mut Rng, states: usize, relations: u16, atoms: u16) -> Kripke {
    let mut kripke = Kripke::new(states);
    let (edges, truths) = (rng.below(9), rng.between(1, 7));
    for state in 0..states {
        for atom in 0..atoms {
            if rng.chance(truths, 8) {
                kripke.set_true(atom, state);
            }
        }
        for relation in 0..relations {
            for to in 0..states {
                if rng.chance(edges, 8) {
                    kripke.add_edge(state, relation, to);
                }
            }
        }
    }
    kripke
}
