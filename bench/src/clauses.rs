//! The clauses on which the search is timed by itself.

use second::generate::Rng;

pub type Clause = [i16; 3];

/// Clauses over the variables 1 to `variables`.
pub struct Set {
    pub name: String,
    pub variables: usize,
    pub clauses: Vec<Clause>,
}

/// A number with a comma after the thousands.
fn grouped(number: usize) -> String {
    match number {
        0..1000 => number.to_string(),
        _ => format!("{},{:03}", number / 1000, number % 1000),
    }
}

/// So many clauses, each of three variables above `from` and up to `to`, with either sign.
fn three_each(rng: &mut Rng, from: usize, to: usize, number: usize) -> Vec<Clause> {
    let mut variables: Vec<i16> = (from + 1..=to).map(|variable| variable as i16).collect();
    let last = variables.len() - 1;
    let mut clause = || {
        [0, 1, 2].map(|at| {
            variables.swap(at, rng.between(at, last));
            [variables[at], -variables[at]][rng.below(2)]
        })
    };
    (0..number).map(|_| clause()).collect()
}

/// Random clauses of three.
pub fn random(variables: usize, number: usize, seed: u64) -> Set {
    let name = format!("{}/{}, seed {seed}", grouped(variables), grouped(number));
    Set { name, variables, clauses: three_each(&mut Rng::new(seed), 0, variables, number) }
}

/// Where the further clauses stand, and what the root makes of them.
#[derive(Clone, Copy)]
pub struct Further {
    pub before: bool,
    pub met: bool,
}

/// Variables and clauses of the contradiction that further clauses are added to.
const CORE: (usize, usize) = (80, 400);

/// A contradiction of random clauses over the lowest variables, and further clauses over others,
/// half as many: the search never comes to these, and their clauses stay as the root leaves them.
/// A half of those that are met are clauses of one, which meet the others.
pub fn core(number: usize, further: Further) -> Set {
    let mut rng = Rng::new(1);
    let (own, of_core) = CORE;
    let variables = own + number / 2;
    let mut core = three_each(&mut rng, 0, own, of_core);
    let mut others = if number == 0 {
        Vec::new()
    } else if further.met {
        met(&mut rng, own, variables)
    } else {
        three_each(&mut rng, own, variables, number)
    };
    let clauses = match further.before {
        true => {
            others.append(&mut core);
            others
        }
        false => {
            core.append(&mut others);
            core
        }
    };
    let state = if further.met { "met" } else { "open" };
    let place = if further.before { "before" } else { "after" };
    Set { name: format!("{} {state}, {place}", grouped(number)), variables, clauses }
}

/// For each variable a clause of one that makes it true or false, and one of three that it meets.
fn met(rng: &mut Rng, from: usize, to: usize) -> Vec<Clause> {
    let mut clauses = three_each(rng, from, to, to - from);
    let ones: Vec<Clause> = (from + 1..=to)
        .zip(&mut clauses)
        .map(|(variable, clause)| {
            let literal = [variable as i16, -(variable as i16)][rng.below(2)];
            clause[rng.below(3)] = literal;
            [literal, 0, 0]
        })
        .collect();
    clauses.extend(ones);
    clauses
}

/// Choices before a chain.
const CHOICES: usize = 3;
/// How often a chain is forced from its first link to its last: once after all choices.
pub const CHAINS: usize = 1 << CHOICES;

/// A chain of so many variables, each of which forces the next one by a clause that stands before
/// the one that forced it; the last leads to a contradiction, and so does the first if it is false.
/// The search meets the chain again after every choice.
pub fn against(length: usize) -> Set {
    let first = CHOICES as i16 + 1;
    let last = CHOICES as i16 + length as i16;
    let (ends, starts) = (last + 1, last + 2);
    let mut clauses: Vec<Clause> = vec![[-last, ends, 0], [-last, -ends, 0]];
    clauses.extend((first..last).rev().map(|link| [-link, link + 1, 0]));
    clauses.extend([[first, starts, 0], [first, -starts, 0]]);
    Set { name: grouped(length), variables: CHOICES + length + 2, clauses }
}

#[cfg(test)]
mod tests {
    use super::*;
    use second::search::{search, Found, Space, Verdict};

    fn found(set: &Set, budget: u32) -> Found {
        let (clauses, number) = (set.clauses.as_flattened(), set.clauses.len());
        let mut values = vec![0; set.variables];
        search(clauses, number, set.variables, budget, &mut Space::default(), &mut values)
    }

    #[test]
    fn clauses_of_three_have_three_variables() {
        let set = random(1000, 1234, 1);
        assert_eq!(set.name, "1,000/1,234, seed 1");
        assert_eq!(set.clauses.len(), 1234);
        for clause in set.clauses {
            let [a, b, c] = clause.map(i16::unsigned_abs);
            assert!(a != b && b != c && a != c && [a, b, c].iter().all(|v| (1..=1000).contains(v)));
        }
    }

    /// Whatever is added, the search is that of the contradiction.
    #[test]
    fn further_clauses_change_no_count() {
        let open = Further { before: false, met: false };
        let alone = found(&core(0, open), u32::MAX);
        assert_eq!(alone.verdict, Verdict::No);
        for (before, met) in [(false, false), (false, true), (true, false), (true, true)] {
            let set = core(1000, Further { before, met });
            assert_eq!(set.clauses.len(), CORE.1 + 1000);
            assert_eq!(found(&set, u32::MAX), alone);
        }
    }

    /// Each choice doubles the nodes, and after all of them the first link is tried twice.
    #[test]
    fn chains_are_met_after_every_choice() {
        let nodes = 4 * CHAINS as u32 - 1;
        assert_eq!(found(&against(50), u32::MAX), Found { verdict: Verdict::No, count: nodes });
    }
}
