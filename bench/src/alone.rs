//! The search alone, over clauses that no book made: random ones, ones that the search never comes
//! to, and chains that are forced against the order of the clauses.

use crate::clauses::{against, core, random, Further, Set, CHAINS};
use crate::searches::{agree, all_agree, base, number, ours, second};
use crate::tables::{answer, duration};
use crate::timing::{in_turn, Times};
use second::search::Found;

const WHAT: &str = "
The search alone: rulebook_search of libsolve.a beside the second program's search and the base's,
for which the second program's scanning one stands: it begins at the first clause again after each
forcing, where the others keep the number of unmet clauses. Each time is that of whole calls over
the same clauses, the least of samples taken in turn; a time ratio is our time over the second
program's. They agree on answer, values and count. All of a line have the same budget unless it says
otherwise: the first nodes of a search are its cheapest.
";

/// Random clauses, and the nodes that all searches enter, and those that only the faster two do.
struct Random {
    set: Set,
    few: u32,
    many: u32,
}

fn all_random() -> Vec<Random> {
    let kinds = [
        (500, 1500, 5, 1_000, 50_000),
        (4095, 5000, 2, 3_000, 3_000),
        (2000, 5000, 2, 300, 20_000),
        (1000, 3000, 2, 300, 20_000),
        (200, 860, 2, 1_000, 50_000),
        (50, 215, 2, 10_000, 10_000),
    ];
    let seeds = kinds.into_iter().flat_map(|(variables, number, seeds, few, many)| {
        (1..=seeds).map(move |seed| Random { set: random(variables, number, seed), few, many })
    });
    seeds.collect()
}

/// Prints it all; an error if the searches disagree.
pub fn print() -> Result<(), String> {
    println!("{WHAT}");
    let random = all_random();
    beside_base(&random)?;
    for_longer(&random)?;
    beside_further()?;
    along_chains()
}

/// A name with what was found.
fn head(name: &str, found: Found) -> String {
    format!("{name:<24} {:>8} {:>8}", answer(number(found.verdict)), found.count)
}

/// Nodes a second of all three.
fn beside_base(all: &[Random]) -> Result<(), String> {
    println!("random clauses of three (variables/clauses): nodes a second");
    println!(
        "{:<24} {:>8} {:>8} {:>11} {:>11} {:>11} {:>10} {:>11}",
        "", "answer", "nodes", "ours", "second", "base", "ours/base", "time ratio"
    );
    for Random { set, few, .. } in all {
        let found = all_agree(set, *few)?;
        let times = in_turn([&mut ours(set, *few), &mut second(set, *few), &mut base(set, *few)]);
        let [ours, second, base] = times.map(|time| f64::from(found.count) / time.least);
        println!(
            "{} {ours:>11.0} {second:>11.0} {base:>11.0} {:>10.1} {:>11.2}",
            head(&set.name, found),
            ours / base,
            second / ours
        );
    }
    Ok(())
}

/// Times of longer searches, without the base's.
fn for_longer(all: &[Random]) -> Result<(), String> {
    println!("\nthe same clauses for longer: times");
    println!(
        "{:<24} {:>8} {:>8} {:>11} {:>11} {:>12} {:>11} {:>8} {:>8}",
        "", "answer", "nodes", "ours least", "median", "second least", "median", "ratio", "median"
    );
    for Random { set, many, .. } in all {
        let found = agree(set, *many)?;
        let [ours, second] = in_turn([&mut ours(set, *many), &mut second(set, *many)]);
        println!(
            "{} {:>11} {:>11} {:>12} {:>11} {:>8.2} {:>8.2}",
            head(&set.name, found),
            duration(ours.least),
            duration(ours.median),
            duration(second.least),
            duration(second.median),
            ours.least / second.least,
            ours.median / second.median
        );
    }
    Ok(())
}

/// Further clauses, in number.
const FURTHER: [usize; 4] = [0, 1000, 2000, 4000];
/// The nodes that the base's search enters beside them.
const FIRST: u32 = 200;

/// All numbers of further clauses in turn: nanoseconds a node, and how often the first of them
/// goes into that.
fn sizes<R: FnMut()>(mut runs: [R; 4], nodes: u32) -> [String; 4] {
    let times = in_turn(runs.each_mut().map(|run| run as &mut dyn FnMut()));
    let a_node = |time: Times| time.least * 1e9 / f64::from(nodes);
    times.map(|time| format!("{:>11.1} {:>7.2}", a_node(time), time.least / times[0].least))
}

/// Whether a node's time depends on clauses that the search never comes to.
fn beside_further() -> Result<(), String> {
    println!(
        "\na contradiction, and further clauses over further variables, after it or before it,"
    );
    println!("open or met at the root: nanoseconds a node, and their growth (the base's over its");
    println!("first {FIRST} nodes)");
    println!(
        "{:<24} {:>8} {:>8} {:>11} {:>7} {:>11} {:>7} {:>11} {:>7}",
        "further clauses",
        "answer",
        "nodes",
        "ours",
        "growth",
        "second",
        "growth",
        "base",
        "growth"
    );
    for (met, before) in [(false, false), (false, true), (true, false), (true, true)] {
        let sets = FURTHER.map(|number| core(number, Further { before, met }));
        sets.iter().try_for_each(|set| all_agree(set, FIRST).map(drop))?;
        let found = sets.iter().map(|set| agree(set, u32::MAX)).collect::<Result<Vec<_>, _>>()?;
        let nodes = found[0].count;
        let ours = sizes(sets.each_ref().map(|set| ours(set, u32::MAX)), nodes);
        let second = sizes(sets.each_ref().map(|set| second(set, u32::MAX)), nodes);
        let base = sizes(sets.each_ref().map(|set| base(set, FIRST)), FIRST);
        for at in 0..4 {
            let (ours, second, base) = (&ours[at], &second[at], &base[at]);
            println!("{} {ours} {second} {base}", head(&sets[at].name, found[at]));
        }
    }
    Ok(())
}

/// Whether a forced literal's time depends on the length of the chain.
fn along_chains() -> Result<(), String> {
    println!(
        "\nchains, each link forced by the clause before that of the last one, {CHAINS} times:"
    );
    println!("nanoseconds a link");
    println!(
        "{:<24} {:>8} {:>8} {:>11} {:>11} {:>11} {:>10} {:>11}",
        "links", "answer", "nodes", "ours", "second", "base", "base/ours", "time ratio"
    );
    for length in [500, 1000, 2000, 4000] {
        let set = &against(length);
        let most = u32::MAX;
        let found = all_agree(set, most)?;
        let times = in_turn([&mut ours(set, most), &mut second(set, most), &mut base(set, most)]);
        let [ours, second, base] = times.map(|time| time.least * 1e9 / (CHAINS * length) as f64);
        println!(
            "{} {ours:>11.1} {second:>11.1} {base:>11.1} {:>10.1} {:>11.2}",
            head(&set.name, found),
            base / ours,
            ours / second
        );
    }
    Ok(())
}
