//! Three searches of the same clauses: ours in libsolve.a, the second program's, and the scanning
//! one, which begins at the first clause again after each forcing, as the base's search did.

use crate::clauses::Set;
use crate::raw;
use second::scanning;
use second::search::{self, Found, Verdict};
use std::hint::black_box;

impl Set {
    /// What a search takes, and values for it.
    fn given(&self) -> (&[i16], usize, usize, Vec<u8>) {
        let Set { clauses, variables, .. } = self;
        (black_box(clauses.as_flattened()), clauses.len(), *variables, vec![0; *variables])
    }
}

/// 01's number for a verdict.
pub fn number(verdict: Verdict) -> u16 {
    match verdict {
        Verdict::Yes => 1,
        Verdict::No => 2,
        Verdict::Stopped => 3,
    }
}

/// Our search, to be run.
pub fn ours(set: &Set, budget: u32) -> impl FnMut() + '_ {
    let (clauses, many, variables, mut values) = set.given();
    let mut work = vec![0; raw::work(variables, many)];
    move || {
        black_box(raw::search(clauses, &mut values, &mut work, budget));
    }
}

/// The second program's search, to be run.
pub fn second(set: &Set, budget: u32) -> impl FnMut() + '_ {
    let (clauses, many, variables, mut values) = set.given();
    let mut space = search::Space::default();
    move || {
        black_box(search::search(clauses, many, variables, budget, &mut space, &mut values));
    }
}

/// The scanning search, to be run.
pub fn base(set: &Set, budget: u32) -> impl FnMut() + '_ {
    let (clauses, many, variables, mut values) = set.given();
    let mut space = scanning::Space::default();
    move || {
        black_box(scanning::search(clauses, many, variables, budget, &mut space, &mut values));
    }
}

fn disagree(set: &Set, how: String) -> Result<Found, String> {
    Err(format!("the searches disagree on {}: {how}", set.name))
}

/// What our search and the second program's find, if they agree: on the answer, on the values, and
/// on the count, which is enough and one less is not. The working space is zero afterwards.
pub fn agree(set: &Set, budget: u32) -> Result<Found, String> {
    let (clauses, many, variables, mut values) = set.given();
    let mut space = search::Space::default();
    let found = search::search(clauses, many, variables, budget, &mut space, &mut values);
    let mut own = vec![9; variables];
    let mut work = vec![9; raw::work(variables, many)];
    let answer = raw::search(clauses, &mut own, &mut work, budget);
    if work.iter().any(|&number| number != 0) {
        return disagree(set, format!("working space left after {found:?}"));
    }
    if answer != u32::from(number(found.verdict)) {
        return disagree(set, format!("{answer} beside {found:?}"));
    }
    if own != values {
        return disagree(set, format!("other values after {found:?}"));
    }
    if found.verdict != Verdict::Stopped {
        if raw::search(clauses, &mut own, &mut work, found.count) != answer {
            return disagree(set, format!("a higher count than that of {found:?}"));
        }
        if raw::search(clauses, &mut own, &mut work, found.count - 1) != 3 {
            return disagree(set, format!("a lower count than that of {found:?}"));
        }
    }
    Ok(found)
}

/// The same of all three.
pub fn all_agree(set: &Set, budget: u32) -> Result<Found, String> {
    let found = agree(set, budget)?;
    let (clauses, many, variables, mut values) = set.given();
    let mut space = scanning::Space::default();
    let scanned = scanning::search(clauses, many, variables, budget, &mut space, &mut values);
    match scanned == found {
        true => Ok(found),
        false => disagree(set, format!("{found:?} beside {scanned:?} by scanning")),
    }
}

#[cfg(test)]
mod tests {
    use super::*;
    use second::generate::Rng;

    fn literal(rng: &mut Rng, variables: usize) -> i16 {
        let variable = rng.between(1, variables) as i16;
        [variable, -variable][rng.below(2)]
    }

    /// A clause of one to three literals, some of them the same or of both signs; seldom of none.
    fn clause(rng: &mut Rng, variables: usize) -> [i16; 3] {
        let [a, b, c] = [(); 3].map(|()| literal(rng, variables));
        let kinds = [[a, b, c], [a, b, c], [0, a, b], [a, a, b], [a, b, a], [b, a, -a], [a, 0, a]];
        match rng.below(60) {
            0 => [0; 3],
            1..=3 => [0, a, 0],
            _ => kinds[rng.below(kinds.len())],
        }
    }

    #[test]
    fn all_three_agree_on_clauses_of_every_kind() {
        let mut rng = Rng::new(6);
        let mut ends = [0; 4];
        for size in 0..20_000 {
            let variables = rng.between(1, if size % 50 == 0 { 200 } else { 12 });
            let many = rng.between(1, 4 * variables);
            let clauses = (0..many).map(|_| clause(&mut rng, variables)).collect();
            let set = Set { name: format!("set {size}"), variables, clauses };
            let found = all_agree(&set, [3, 2_000][rng.below(2)]).unwrap();
            ends[usize::from(number(found.verdict))] += 1;
            ends[0] += usize::from(found.count > 1);
        }
        assert!(ends.iter().all(|&many| many > 20), "{ends:?}");
    }
}
