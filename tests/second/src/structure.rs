//! 01, "The structure": living states, edges and true atoms of a build whose search said yes, and
//! a plain Kripke structure (000, section 2).

use crate::build::{Totals, ATOM_KEY, STATES, WORD_STATE};
use std::collections::BTreeSet;

/// States 0, 1, ..., each with its true atoms and its edges. Edges lead to states that exist.
#[derive(Clone, Debug, Default, PartialEq, Eq)]
pub struct Kripke {
    atoms: Vec<BTreeSet<u16>>,
    successors: Vec<Vec<(u16, usize)>>,
}

impl Kripke {
    /// A structure without edges and true atoms.
    pub fn new(states: usize) -> Kripke {
        Kripke { atoms: vec![BTreeSet::new(); states], successors: vec![Vec::new(); states] }
    }

    /// The number of states.
    pub fn states(&self) -> usize {
        self.atoms.len()
    }

    /// Makes an atom true at a state that exists.
    pub fn set_true(&mut self, atom: u16, state: usize) {
        if let Some(atoms) = self.atoms.get_mut(state) {
            atoms.insert(atom);
        }
    }

    /// Adds an edge between states that exist.
    pub fn add_edge(&mut self, from: usize, relation: u16, to: usize) {
        if to < self.states() {
            if let Some(edges) = self.successors.get_mut(from) {
                edges.push((relation, to));
            }
        }
    }

    /// L(atom, state).
    pub fn is_true(&self, atom: u16, state: usize) -> bool {
        self.atoms.get(state).is_some_and(|atoms| atoms.contains(&atom))
    }

    /// The successors of a state through a relation.
    pub fn successors(&self, state: usize, relation: u16) -> impl Iterator<Item = usize> + '_ {
        let edges = self.successors.get(state).map_or(&[][..], Vec::as_slice);
        edges.iter().filter(move |edge| edge.0 == relation).map(|edge| edge.1)
    }
}

/// A living state by its number in the build, with its record and its true atoms ascending.
#[derive(Clone, Debug, PartialEq, Eq)]
pub struct Living {
    pub number: u16,
    pub parent: u16,
    pub relation: u16,
    pub atoms: Vec<u16>,
}

/// By state number (place 0 stands for no state): whether it lives. State 1 does; another does if
/// its parent does and its maker is 1. State 1's zero record is never read as an edge.
pub fn living(states: &[u16], number: usize, values: &[u8]) -> Vec<bool> {
    let mut lives = vec![false; number + 1];
    for (at, &[parent, _, maker]) in states.as_chunks().0.iter().take(number).enumerate() {
        let made = usize::from(maker).checked_sub(1).and_then(|maker| values.get(maker));
        let parent_lives = usize::from(parent) <= at && lives[usize::from(parent)];
        lives[at + 1] = at == 0 || (parent_lives && made == Some(&1));
    }
    lives
}

/// The living states by number, read from a build and values.
pub fn read_back(totals: Totals, states: &[u16], words: &[u32], values: &[u8]) -> Vec<Living> {
    let lives = living(states, totals.states.min(STATES), values);
    let mut atoms = vec![BTreeSet::new(); lives.len()];
    for (&word, _) in words.iter().zip(values).take(totals.variables).filter(|(_, v)| **v == 1) {
        let key = (word % WORD_STATE) as u16;
        let here = atoms.get_mut((word / WORD_STATE) as usize);
        if let (Some(here), Some(atom)) = (here, key.checked_sub(ATOM_KEY)) {
            here.insert(atom);
        }
    }
    (1u16..)
        .zip(states.as_chunks().0)
        .zip(lives.into_iter().zip(atoms).skip(1))
        .filter(|(_, (lives, _))| *lives)
        .map(|((number, &[parent, relation, _]), (_, atoms))| Living {
            number,
            parent,
            relation,
            atoms: atoms.into_iter().collect(),
        })
        .collect()
}

/// The Kripke structure of the living states: the first of them, state 1, is its state 0.
pub fn kripke(living: &[Living]) -> Kripke {
    let mut kripke = Kripke::new(living.len());
    for (at, state) in living.iter().enumerate() {
        for &atom in &state.atoms {
            kripke.set_true(atom, at);
        }
        let parent = living[..at].binary_search_by_key(&state.parent, |other| other.number);
        if let Ok(parent) = parent {
            kripke.add_edge(parent, state.relation, at);
        }
    }
    kripke
}
