//! The evaluation on raw buffers, whatever they hold, by 01's words ("The structure") and the
//! truth of the second program. 10 stands for a buffer shorter than its size, or a total that no
//! build has.

use crate::calls::{Lying, EVALUATION_WORK, STATES, VARIABLES};
use second::book::parse;
use second::structure::Kripke;
use second::truth::root_holds;

/// What `rulebook_evaluate` has to return with so many bytes of working space.
pub fn judge(book: &[u8], on: Lying, work: usize) -> u32 {
    if !fits(on) || work < EVALUATION_WORK {
        return 10;
    }
    match parse(book) {
        Err(refusal) => refusal.number().into(),
        Ok(book) if root_holds(&book, &structure(on), 0) => 1,
        Ok(_) => 2,
    }
}

fn fits(on: Lying) -> bool {
    (1..=STATES).contains(&on.states_count)
        && on.variables_count <= VARIABLES
        && on.states.len() >= STATES
        && on.words.len() >= VARIABLES
        && on.values.len() >= VARIABLES
}

/// By place, state 1 at the first: "State 1 lives. Another state lives if its parent lives and its
/// making variable is 1." A parent is a state before it; a variable beyond the total is not 1.
fn lives(on: Lying) -> Vec<bool> {
    let mut lives = vec![true];
    for &[parent, _, maker] in &on.states[1..on.states_count] {
        let before = |number: u16| usize::from(number).checked_sub(1);
        let parent_lives = before(parent).and_then(|at| lives.get(at)) == Some(&true);
        let made = before(maker).and_then(|at| on.values[..on.variables_count].get(at));
        lives.push(parent_lives && made == Some(&1));
    }
    lives
}

/// "Edges are the records of living states", state 1's too, whose parent 0 is no state. "An atom
/// is true at a state if its variable there is 1": several words of one atom serve like one.
fn structure(on: Lying) -> Kripke {
    let lives = lives(on);
    let mut kripke = Kripke::new(lives.len());
    for (at, &[parent, relation, _]) in on.states[..lives.len()].iter().enumerate() {
        if lives[at] && parent > 0 {
            kripke.add_edge(usize::from(parent) - 1, relation, at);
        }
    }
    let variables = on.words.iter().zip(on.values).take(on.variables_count);
    for (&word, _) in variables.filter(|(_, value)| **value == 1) {
        let (state, key) = ((word / 2048) as usize, (word % 2048) as u16);
        if state > 0 && key >= 1024 {
            kripke.set_true(key - 1024, state - 1);
        }
    }
    kripke
}

#[cfg(test)]
mod tests {
    use super::*;
    use second::generate::Draft;

    /// p at state 1, whose damaged record leads back to itself by relation 0.
    #[test]
    fn a_loop_at_state_one_is_an_edge() {
        let mut draft = Draft::new(1, 1);
        let p = draft.atom(0);
        draft.possibly(p, 0);
        let mut states = vec![[0; 3]; STATES];
        let mut words = vec![0; VARIABLES];
        let mut values = vec![0; VARIABLES];
        (words[0], values[0]) = (2048 + 1024, 1);
        let book = draft.bytes(&[]);
        let number = |states: &[[u16; 3]], work| {
            let (words, values) = (&words[..], &values[..]);
            let on = Lying { states, states_count: 1, words, variables_count: 1, values };
            judge(&book, on, work)
        };
        assert_eq!(number(&states, EVALUATION_WORK), 2);
        states[0] = [1, 0, 0];
        assert_eq!(number(&states, EVALUATION_WORK), 1);
        assert_eq!(number(&states, EVALUATION_WORK - 1), 10);
        assert_eq!(number(&states[1..], EVALUATION_WORK), 10);
    }
}
