//! The search that visits only clauses of literals just made false and counts the unmet ones,
//! against the scanning one: verdict, count and values on random clauses, at budgets around the
//! count.

use second::generate::Rng;
use second::scanning;
use second::search::{search, Found, Space, Verdict};

/// What the values hold before, and beyond the variables afterwards.
const OLD: u8 = 9;
const BEYOND: usize = 3;

/// Clauses over the variables 1 to `variables`.
struct Clauses {
    variables: usize,
    clauses: Vec<[i16; 3]>,
}

/// Both searches, each with a working space that is never cleared.
#[derive(Default)]
struct Both {
    visiting: Space,
    scanning: scanning::Space,
}

impl Both {
    /// What both find, with the values they leave; they must be the same.
    fn agree(&mut self, on: &Clauses, budget: u32) -> (Found, Vec<u8>) {
        let Clauses { variables, clauses } = on;
        let (flat, number) = (clauses.as_flattened(), clauses.len());
        let mut values = vec![OLD; variables + BEYOND];
        let mut scanned = values.clone();
        let found = search(flat, number, *variables, budget, &mut self.visiting, &mut values);
        let slow = &mut self.scanning;
        let baseline = scanning::search(flat, number, *variables, budget, slow, &mut scanned);
        assert_eq!(found, baseline, "within {budget}: {clauses:?}");
        assert_eq!(values, scanned, "within {budget}: {clauses:?}");
        assert_eq!(values.split_off(*variables), [OLD; BEYOND]);
        (found, values)
    }

    /// They agree within `most` nodes and, where the search ends, at the budgets around its count,
    /// of which those below stop it.
    fn agree_around(&mut self, on: &Clauses, most: u32) -> Found {
        let (found, values) = self.agree(on, most);
        assert_eq!(self.agree(on, 0).0, Found { verdict: Verdict::Stopped, count: 0 });
        match found.verdict {
            Verdict::Yes => assert!(satisfied(&on.clauses, &values)),
            Verdict::No | Verdict::Stopped => assert!(values.iter().all(|value| *value == 0)),
        }
        if found.verdict != Verdict::Stopped {
            for budget in [found.count, found.count + 1, u32::MAX] {
                assert_eq!(self.agree(on, budget), (found, values.clone()));
            }
            let short = Found { verdict: Verdict::Stopped, count: found.count - 1 };
            assert_eq!(self.agree(on, short.count).0, short);
        }
        found
    }
}

/// Whether each clause has a literal that the values make true.
fn satisfied(clauses: &[[i16; 3]], values: &[u8]) -> bool {
    let holds = |literal: i16| match usize::from(literal.unsigned_abs()) {
        0 => false,
        variable => (values[variable - 1] == 1) == (literal > 0),
    };
    clauses.iter().all(|clause| clause.iter().any(|&literal| holds(literal)))
}

fn literal(rng: &mut Rng, variables: usize) -> i16 {
    let variable = rng.between(1, variables) as i16;
    [variable, -variable][rng.below(2)]
}

/// Weights of the kinds of clauses: three literals, one, two, a repeated one, both signs of one
/// variable, and unused places only.
type Weights = [usize; 6];

const PLAIN: Weights = [1, 0, 0, 0, 0, 0];
const MIXED: Weights = [40, 4, 30, 15, 10, 0];
const EMPTY: Weights = [40, 4, 30, 15, 10, 1];
const LONG: Weights = [160, 1, 20, 20, 20, 0];

/// A clause with its literals, and the unused places among them, in any order.
fn clause(rng: &mut Rng, variables: usize, weights: &Weights) -> [i16; 3] {
    let [a, b, c] = [(); 3].map(|()| literal(rng, variables));
    let mut clause = match rng.weighted(weights) {
        0 => [a, b, c],
        1 => [a, 0, 0],
        2 => [a, b, 0],
        3 => [[a, a, b], [a, a, 0], [a, a, a]][rng.below(3)],
        4 => [[a, -a, b], [a, -a, 0], [a, -a, a]][rng.below(3)],
        _ => [0; 3],
    };
    clause.swap(0, rng.below(3));
    clause.swap(1, rng.between(1, 2));
    clause
}

fn random(rng: &mut Rng, variables: usize, number: usize, weights: &Weights) -> Clauses {
    let clauses = (0..number).map(|_| clause(rng, variables, weights)).collect();
    Clauses { variables, clauses }
}

/// How the searches ended, and how many of them branched.
#[derive(Default, Debug)]
struct Tally {
    yes: u32,
    no: u32,
    stopped: u32,
    branched: u32,
}

impl Tally {
    fn add(&mut self, found: Found) {
        match found.verdict {
            Verdict::Yes => self.yes += 1,
            Verdict::No => self.no += 1,
            Verdict::Stopped => self.stopped += 1,
        }
        self.branched += u32::from(found.count > 1);
    }
}

#[test]
fn on_few_variables() {
    let (mut both, mut tally) = (Both::default(), Tally::default());
    for seed in 0..40_000 {
        let mut rng = Rng::new(seed);
        let variables = rng.between(1, 12);
        let number = rng.between(0, 5 * variables);
        let weights = [PLAIN, MIXED, EMPTY][rng.below(3)];
        tally.add(both.agree_around(&random(&mut rng, variables, number, &weights), u32::MAX));
    }
    assert!(tally.yes > 10_000 && tally.no > 10_000 && tally.branched > 15_000, "{tally:?}");
}

#[test]
fn on_many_variables() {
    let (mut both, mut tally) = (Both::default(), Tally::default());
    for seed in 0..400 {
        let mut rng = Rng::new(seed);
        let variables = rng.between(13, 150);
        let number = variables * rng.between(20, 45) / 10;
        let weights = [PLAIN, LONG][rng.below(2)];
        tally.add(both.agree_around(&random(&mut rng, variables, number, &weights), 2_000));
    }
    assert!(tally.yes > 100 && tally.no > 100 && tally.stopped > 30, "{tally:?}");
}

#[test]
fn at_the_limits() {
    let mut both = Both::default();
    for seed in 0..3 {
        let mut rng = Rng::new(seed);
        let found = both.agree(&random(&mut rng, 4095, 5000, &PLAIN), 100).0;
        assert_eq!(found.count, 100);
        let found = both.agree(&random(&mut rng, 4095, 5000, &MIXED), 100).0;
        assert_eq!(found, Found { verdict: Verdict::No, count: 1 });
    }
}

/// 1 forces 2 and so on, each clause standing before the one that makes it force, down to the
/// first clause, which the last variable meets or fails.
#[test]
fn forcing_against_the_order_of_clauses() {
    let mut both = Both::default();
    for last in [1, -1] {
        let clauses = (1..=1000).rev().map(|i: i16| match i {
            1000 => [0, last * i, -i + 1],
            1 => [i, i, 0],
            _ => [-i + 1, i, 0],
        });
        let on = Clauses { variables: 1000, clauses: clauses.collect() };
        let found = both.agree_around(&on, u32::MAX);
        assert_eq!(found, Found { verdict: Verdict::Yes, count: 1 });
        let mut clauses = on.clauses;
        clauses.insert(0, [-last * 1000, 0, 0]);
        let found = both.agree_around(&Clauses { variables: 1000, clauses }, u32::MAX);
        assert_eq!(found, Found { verdict: Verdict::No, count: 1 });
    }
}

/// Sets that are easily taken for others, with verdict and count.
#[test]
fn on_corners() {
    let cases: [(usize, &[[i16; 3]], Verdict, u32); 11] = [
        (0, &[], Verdict::Yes, 1),
        (0, &[[0, 0, 0]], Verdict::No, 1),
        (3, &[], Verdict::Yes, 1),
        (2, &[[1, 2, 0], [0, 0, 0]], Verdict::No, 1),
        (2, &[[0, 2, 0], [0, 0, -2]], Verdict::No, 1),
        (2, &[[2, 2, 2]], Verdict::Yes, 1),
        (2, &[[2, -2, 0]], Verdict::Yes, 3),
        (2, &[[1, 1, 2], [-2, 0, -2]], Verdict::Yes, 1),
        (2, &[[-1, 2, 2], [-1, -2, -2]], Verdict::Yes, 3),
        (2, &[[1, 2, 0], [1, -2, 0], [-1, 2, 0], [-1, -2, 0]], Verdict::No, 3),
        (3, &[[1, 0, 0], [-1, -2, 2], [3, -1, 3]], Verdict::Yes, 2),
    ];
    let mut both = Both::default();
    for (variables, clauses, verdict, count) in cases {
        let found = both.agree_around(&Clauses { variables, clauses: clauses.to_vec() }, u32::MAX);
        assert_eq!(found, Found { verdict, count }, "{clauses:?}");
    }
}
