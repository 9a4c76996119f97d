//! A quick timing of build and search on large books: `cargo run --release --example timing`.

use second::answer::Buffers;
use second::book::Book;
use second::build::build;
use second::generate::{
    binary_states, book, chain_states, fan_clauses, fan_states, fan_variables, random_at, Draft,
    Limit, Rng, Shape,
};
use second::search::{search, Space};
use std::hint::black_box;
use std::time::{Duration, Instant};

/// The least time of some rounds, each of as many runs as fill a few milliseconds.
fn least(mut run: impl FnMut()) -> Duration {
    let start = Instant::now();
    run();
    let once = start.elapsed().max(Duration::from_nanos(100));
    let runs = (5_000_000 / once.as_nanos()).clamp(1, 10_000) as u32;
    let round = |run: &mut dyn FnMut()| {
        let start = Instant::now();
        (0..runs).for_each(|_| run());
        start.elapsed() / runs
    };
    (0..5).map(|_| round(&mut run)).min().unwrap_or(once)
}

fn time(name: &str, book: &Book, budget: u32) {
    let (mut lent, mut space) = (Buffers::default(), Space::default());
    let Buffers { states, words, clauses, values } = &mut lent;
    let Some(totals) = build(book, states, words, clauses) else {
        let build_time = least(|| {
            black_box(build(black_box(book), states, words, clauses));
        });
        return println!("{name:<24} over a limit        build {build_time:>10.1?}");
    };
    let build_time = least(|| {
        black_box(build(black_box(book), states, words, clauses));
    });
    let (variables, number) = (totals.variables, totals.clauses);
    let found = search(clauses, number, variables, budget, &mut space, values);
    let search_time = least(|| {
        black_box(search(black_box(clauses), number, variables, budget, &mut space, values));
    });
    let sizes = format!("{}/{variables}/{number}", totals.states);
    let verdict = format!("{:?} {}", found.verdict, found.count);
    println!(
        "{name:<24} {sizes:<16} build {build_time:>10.1?}  {verdict:<16} search {search_time:>10.1?}"
    );
}

fn main() {
    let mut rng = Rng::new(1);
    let mut books: Vec<(&str, Draft, u32)> = vec![
        ("binary_states(1)", binary_states(1), 1000),
        ("chain_states(300,211)", chain_states(300, 211), 1000),
        ("fan_states(169,2,2)", fan_states(169, 2, 2), 1000),
        ("fan_variables(39,97,2)", fan_variables(39, 97, 2), 1000),
        ("fan_variables(98,38,2)", fan_variables(98, 38, 2), 1000),
        ("fan_clauses(33,140,2)", fan_clauses(33, 140, 2), 1000),
        ("fan_clauses(89,52,2)", fan_clauses(89, 52, 2), 1000),
    ];
    for limit in [Limit::States, Limit::Variables, Limit::Clauses] {
        let random = (0..40).find_map(|_| random_at(&mut rng, limit, limit.most()));
        books.extend(random.map(|draft| ("random_at", draft, 20)));
    }
    for shape in [Shape::Large, Shape::Deep, Shape::Wide, Shape::Cnf, Shape::Cnf, Shape::Pigeons] {
        books.push(("random shape", book(shape, &mut rng), 100_000));
    }
    for (name, draft, budget) in books {
        match draft.book() {
            Ok(book) => time(name, &book, budget),
            Err(refusal) => println!("{name}: refused {}", refusal.number()),
        }
    }
}
