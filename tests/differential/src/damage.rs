//! Damage to the buffers that an evaluation reads, and structures that no build has.

use crate::calls::{EVALUATION_WORK, STATES, VARIABLES};
use crate::compare::Evaluating;
use crate::lending::{Buffer, Lending, Lengths, ROOM};
use second::generate::Rng;

/// States and variables of an invented structure at most.
const INVENTED: (usize, usize) = (40, 160);

/// Some cells changed, or a structure of its own; now and then a wrong total or a short buffer.
pub fn damage(lent: &mut Lending, on: Evaluating, rng: &mut Rng) -> Evaluating {
    let mut on = Evaluating { damaged: true, ..on };
    if rng.chance(1, 4) {
        on = invent(lent, on, rng);
    }
    for _ in 0..rng.between(1, 12) {
        change(lent, on.states, on.variables, rng);
    }
    if rng.chance(1, 3) {
        mislead(&mut on, rng);
    }
    on
}

/// Random records, words and values, many states living and many atoms true.
pub fn invent(lent: &mut Lending, on: Evaluating, rng: &mut Rng) -> Evaluating {
    let states = rng.between(1, INVENTED.0);
    let variables = rng.between(0, INVENTED.1);
    for (at, record) in lent.states[..states].iter_mut().enumerate() {
        let least = usize::from(rng.chance(7, 8));
        let maker = rng.between(least, variables);
        *record = [rng.between(0, at), rng.below(2), maker].map(|number| number as u16);
    }
    for word in &mut lent.words[..variables] {
        *word = (2048 * rng.between(1, states) + 1024 + rng.below(6)) as u32;
    }
    for value in &mut lent.values[..variables] {
        *value = u8::from(rng.chance(3, 4));
    }
    Evaluating { states, variables, damaged: true, ..on }
}

/// Changes one cell.
fn change(lent: &mut Lending, states: usize, variables: usize, rng: &mut Rng) {
    let (state, variable) = (rng.below(states), rng.below(variables));
    match rng.below(10) {
        0 => lent.states[state][0] = rng.between(0, states + 1) as u16,
        1 => lent.states[state][1] = rng.below(3) as u16,
        2 => lent.states[state][2] = rng.between(0, variables + 1) as u16,
        3 => lent.states[state] = [(); 3].map(|()| rng.draw() as u16),
        4 => lent.states[0] = [rng.between(0, states) as u16, rng.below(2) as u16, 0],
        5 => {
            let atoms = if rng.chance(1, 8) { 1024 } else { 4 };
            let key = 1024 + rng.below(atoms);
            lent.words[variable] = (2048 * rng.between(0, states + 1) + key) as u32;
        }
        6 => lent.words[variable] = rng.draw() as u32,
        7 => lent.values[variable] ^= 1,
        8 => lent.values[variable] = [2, 3, 128, 255][rng.below(4)],
        _ => lent.values[variable] = 1,
    }
}

/// A total beside the right one or past its bound, or a buffer of another length.
fn mislead(on: &mut Evaluating, rng: &mut Rng) {
    let near = |total: usize, most: usize, rng: &mut Rng| {
        [0, total.saturating_sub(1), total + 1, most, most + 1, usize::MAX][rng.below(6)]
    };
    match rng.below(7) {
        0 => on.states = near(on.states, STATES, rng),
        1 => on.variables = near(on.variables, VARIABLES, rng),
        2 => on.lengths = on.lengths.short_of(Buffer::States, 1),
        3 => on.lengths = on.lengths.short_of(Buffer::Words, 1),
        4 => on.lengths = on.lengths.short_of(Buffer::Values, 1),
        5 => on.work -= if rng.chance(1, 2) { 1 } else { rng.between(1, EVALUATION_WORK) },
        _ => on.lengths = Lengths::sizes(ROOM),
    }
}
