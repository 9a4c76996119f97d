//! Random books: the fast build and search against slow ones by the letter, verdicts against the
//! tableau and against random structures, and the structure read back against truth.

mod naive;

use second::answer::{check, Answer, Buffers};
use second::book::{parse, Book};
use second::build::{build, Totals};
use second::generate::{any_book, book, note, structure, Rng, Shape, SHAPES};
use second::search::{search, Found, Space, Verdict};
use second::structure::{kripke, read_back};
use second::tableau;
use second::truth::{evaluate, evaluate_by_classes, root_holds};

const BOOKS: u64 = 800;

fn budget(shape: Shape) -> u32 {
    match shape {
        Shape::Small | Shape::Cnf | Shape::ModalCnf | Shape::Pigeons => 3_000,
        Shape::Large | Shape::Wide | Shape::Shared => 60,
        _ => 150,
    }
}

/// Calls `test` with `number` books of each shape.
fn each_book(seed: u64, number: u64, mut test: impl FnMut(Shape, &mut Rng, &Book)) {
    for (at, shape) in SHAPES.into_iter().enumerate() {
        for one in 0..number {
            let mut rng = Rng::new(seed + 1_000_003 * at as u64 + one);
            let draft = book(shape, &mut rng);
            let bytes = draft.bytes(&note(&mut rng));
            let parsed = parse(&bytes).expect("shapes keep the rules");
            assert_eq!(parsed.nodes(), draft.nodes);
            test(shape, &mut rng, &parsed);
        }
    }
}

#[test]
fn the_build_is_the_slow_one() {
    let mut refused = 0;
    each_book(1, BOOKS, |_, _, book| {
        let mut bench = Bench::default();
        let slow = naive::build(book);
        if !bench.build(book) {
            assert!(slow.over());
            refused += 1;
            return;
        }
        assert!(!slow.over());
        let Bench { totals, lent, .. } = bench;
        assert_eq!(lent.states[..3 * totals.states], *slow.states.as_flattened());
        assert_eq!(lent.words[..totals.variables], slow.words);
        assert_eq!(lent.clauses[..3 * totals.clauses], *slow.clauses.as_flattened());
        assert!(lent.states[3 * totals.states..].iter().all(|number| *number == 0));
        assert!(lent.words[totals.variables..].iter().all(|word| *word == 0));
        assert!(lent.clauses[3 * totals.clauses..].iter().all(|literal| *literal == 0));
    });
    assert!(refused > 50, "books over the limits occur: {refused}");
}

/// The slow search of some clauses: what it finds, and the values.
fn slow_search(clauses: &[[i16; 3]], variables: usize, budget: u32) -> (Found, Vec<u8>) {
    let mut slow = naive::Search {
        clauses,
        variables,
        budget: budget.into(),
        count: 0,
        values: vec![0; variables],
    };
    let verdict = match slow.node(vec![None; variables + 1]) {
        Some(true) => Verdict::Yes,
        Some(false) => Verdict::No,
        None => Verdict::Stopped,
    };
    let count = slow.count.min(budget.into()) as u32;
    (Found { verdict, count }, slow.values)
}

#[test]
fn the_search_is_the_slow_one() {
    let mut bench = Bench::default();
    each_book(2, 60, |_, _, book| {
        if !bench.build(book) || bench.totals.clauses > 700 {
            return;
        }
        let found = bench.search(150);
        let Totals { variables, clauses, .. } = bench.totals;
        let written = &bench.lent.clauses.as_chunks().0[..clauses];
        let (slow, values) = slow_search(written, variables, 150);
        assert_eq!(found, slow);
        assert_eq!(bench.lent.values[..variables], values);
    });
}

/// Random clauses that no build would write: fewer promises, more corners.
#[test]
fn the_search_is_the_slow_one_on_any_clauses() {
    let mut space = Space::default();
    for seed in 0..20_000 {
        let mut rng = Rng::new(seed);
        let variables = rng.between(1, 9);
        let number = rng.between(0, 40);
        let mut literal = || rng.below(2 * variables + 1) as i16 - variables as i16;
        let clauses: Vec<[i16; 3]> =
            (0..number).map(|_| [literal(), literal(), literal()]).collect();
        let mut values = [9; 12];
        let flat = clauses.as_flattened();
        let found = search(flat, clauses.len(), variables, u32::MAX, &mut space, &mut values);
        let (slow, slow_values) = slow_search(&clauses, variables, u32::MAX);
        assert_eq!(found, slow);
        assert_eq!(values[..variables], slow_values);
        assert!(values[variables..].iter().all(|value| *value == 9));
    }
}

/// One book's search with its working space.
#[derive(Default)]
struct Bench {
    lent: Buffers,
    space: Space,
    totals: Totals,
}

impl Bench {
    /// Builds a book; false if it is over a limit.
    fn build(&mut self, book: &Book) -> bool {
        let Buffers { states, words, clauses, .. } = &mut self.lent;
        let totals = build(book, states, words, clauses);
        self.totals = totals.unwrap_or_default();
        totals.is_some()
    }

    fn search(&mut self, budget: u32) -> Found {
        let Totals { variables, clauses, .. } = self.totals;
        let Buffers { clauses: literals, values, .. } = &mut self.lent;
        search(literals, clauses, variables, budget, &mut self.space, values)
    }

    /// Whether the structure read back after a yes makes the root true.
    fn reads_back(&self, book: &Book) -> bool {
        let Buffers { states, words, values, .. } = &self.lent;
        root_holds(book, &kripke(&read_back(self.totals, states, words, values)), 0)
    }
}

/// Yes: the structure read back makes the root true. Every finished verdict is the tableau's,
/// where that finishes.
#[test]
fn verdicts_hold() {
    let mut bench = Bench::default();
    let (mut yes, mut no, mut stopped, mut unknown) = (0, 0, 0, 0);
    each_book(3, BOOKS, |shape, _, book| {
        if !bench.build(book) {
            return;
        }
        let satisfied = match bench.search(budget(shape)).verdict {
            Verdict::Yes => true,
            Verdict::No => false,
            Verdict::Stopped => return stopped += 1,
        };
        assert!(!satisfied || bench.reads_back(book));
        yes += u32::from(satisfied);
        no += u32::from(!satisfied);
        match tableau::decide(book, 20_000) {
            tableau::Verdict::Satisfiable => assert!(satisfied),
            tableau::Verdict::Unsatisfiable => assert!(!satisfied),
            tableau::Verdict::Unknown => unknown += 1,
        }
    });
    println!("yes {yes} no {no} stopped {stopped} unknown {unknown}");
    assert!(yes > 5000 && no > 1500 && unknown < 100);
}

/// The count is at most 2^variables − 1, serves as a budget, and one less doesn't.
#[test]
fn counts_are_exact() {
    let mut bench = Bench::default();
    let mut branched = 0;
    each_book(6, BOOKS, |shape, _, book| {
        if !bench.build(book) {
            return;
        }
        let found = bench.search(budget(shape));
        let Found { verdict, count } = found;
        if verdict == Verdict::Stopped {
            return assert_eq!(count, budget(shape));
        }
        assert!(count >= 1 && u64::from(count) < 1 << bench.totals.variables.min(63));
        let values = bench.lent.values.clone();
        let short = Found { verdict: Verdict::Stopped, count: count - 1 };
        assert_eq!(bench.search(count - 1), short);
        assert!(bench.lent.values[..bench.totals.variables].iter().all(|value| *value == 0));
        assert_eq!(bench.search(count), found);
        assert_eq!(bench.lent.values, values);
        branched += u32::from(count > 2);
    });
    assert!(branched > 2500, "searches branch: {branched}");
}

/// A structure that makes the root true rules out the verdict no.
#[test]
fn a_model_rules_out_no() {
    let mut bench = Bench::default();
    let mut models = 0;
    each_book(4, 300, |shape, rng, book| {
        if !bench.build(book) {
            return;
        }
        let found = bench.search(budget(shape));
        for _ in 0..8 {
            let states = rng.between(1, 5);
            let kripke = structure(rng, states, book.relations(), book.atoms());
            let table = evaluate(book, &kripke);
            if (0..states).any(|state| table.holds(book.root(), state)) {
                models += 1;
                assert_ne!(found.verdict, Verdict::No);
            }
        }
    });
    assert!(models > 3000, "models occur: {models}");
}

/// 000's definition over the classes and the meaning of the connectives agree on any structure.
#[test]
fn classes_mean_what_the_connectives_mean() {
    each_book(5, 100, |_, rng, book| {
        let states = rng.between(1, 6);
        let kripke = structure(rng, states, book.relations(), book.atoms());
        let plain = evaluate(book, &kripke);
        let signed = evaluate_by_classes(book, &kripke);
        for node in 0..book.nodes().len() as u16 {
            for state in 0..states {
                let holds = plain.holds(node, state);
                assert_eq!(signed.holds(2 * node, state), holds);
                assert_eq!(signed.holds(2 * node + 1, state), !holds);
            }
        }
    });
}

/// The note and the buffers' old contents change nothing.
#[test]
fn notes_and_old_contents_have_no_effect() {
    for seed in 0..300 {
        let mut rng = Rng::new(seed);
        let draft = any_book(&mut rng);
        let run = |fill, note: &[u8]| -> (Answer, Buffers) {
            let mut buffers = Buffers::filled(0, fill);
            let answer = check(&draft.bytes(note), 100, buffers.lend());
            (answer, buffers)
        };
        assert_eq!(run(0, &[]), run(0xAA, &note(&mut rng)));
    }
}
