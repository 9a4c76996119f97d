//! The books that are timed, by name.

use second::answer::{check, Buffers};
use second::generate::{
    book, chain_states, fan_clauses, fan_states, fan_variables, Draft, Rng, Shape,
};
use std::fs;
use std::path::PathBuf;

/// The program's budget (01).
const BUDGET: u32 = 1_000_000;

/// Books that are timed together, one after the other, each with the same budget.
pub struct Case {
    pub name: &'static str,
    pub books: Vec<Vec<u8>>,
    pub budget: u32,
}

type Bytes = Result<Vec<u8>, String>;

fn top(path: &str) -> PathBuf {
    PathBuf::from(concat!(env!("CARGO_MANIFEST_DIR"), "/..")).join(path)
}

/// The book of a text.
fn rules(path: &str) -> Bytes {
    let text = fs::read_to_string(top(path)).map_err(|error| format!("{path}: {error}"))?;
    let book = ruletext::text::read(&text).map_err(|fault| format!("{path}: {fault:?}"))?;
    Ok(book.bytes())
}

fn draft(draft: Draft) -> Bytes {
    Ok(draft.bytes(&[]))
}

/// 01's books M1 to M10.
fn small() -> Result<Vec<Vec<u8>>, String> {
    (1..=10).map(|number| rules(&format!("tests/books/m{number:02}.rules"))).collect()
}

/// So many random books of the shapes in turn, within the limits, that please and whose search ends
/// within the budget.
fn random(
    number: usize,
    shapes: &[Shape],
    budget: u32,
    pleases: fn(&Draft) -> bool,
) -> Vec<Vec<u8>> {
    let mut rng = Rng::new(2024);
    let mut buffers = Buffers::default();
    let mut books = Vec::new();
    while books.len() < number {
        let one = book(shapes[books.len() % shapes.len()], &mut rng);
        let bytes = one.bytes(&[]);
        let answer = check(&bytes, budget, buffers.lend());
        if pleases(&one) && answer.number <= 2 && answer.totals.variables >= 40 {
            books.push(bytes);
        }
    }
    books
}

/// 50 to 150 nodes over several relations.
fn usual(draft: &Draft) -> bool {
    (50..=150).contains(&draft.nodes.len()) && draft.relations >= 2
}

/// Random clauses of three literals over distinct atoms, added to a draft that has the atoms.
fn three_clauses(draft: &mut Draft, rng: &mut Rng, atoms: &[u16], number: usize) -> u16 {
    let minus: Vec<u16> = atoms.iter().map(|&atom| draft.not(atom)).collect();
    let mut order: Vec<usize> = (0..atoms.len()).collect();
    let clauses: Vec<u16> = (0..number)
        .map(|_| {
            let three = [0, 1, 2].map(|at| {
                order.swap(at, rng.between(at, atoms.len() - 1));
                [atoms, &minus][rng.below(2)][order[at]]
            });
            draft.any_of(&three)
        })
        .collect();
    draft.all_of(&clauses)
}

fn cnf(seed: u64, atoms: u16, clauses: usize) -> Draft {
    let mut draft = Draft::new(1, atoms);
    let atoms: Vec<u16> = (0..atoms).map(|atom| draft.atom(atom)).collect();
    three_clauses(&mut draft, &mut Rng::new(seed), &atoms, clauses);
    draft
}

/// So many free choices at state 1, and a contradiction of random clauses after a diamond: the
/// search meets it again after every choice.
fn choices(number: u16, seed: u64, atoms: u16, clauses: usize) -> Draft {
    let mut draft = Draft::new(1, 2 * number + atoms);
    let all: Vec<u16> = (0..draft.atoms).map(|atom| draft.atom(atom)).collect();
    let (free, rest) = all.split_at(2 * usize::from(number));
    let below = three_clauses(&mut draft, &mut Rng::new(seed), rest, clauses);
    let mut items: Vec<u16> = free.chunks(2).map(|two| draft.or(two[0], two[1])).collect();
    items.push(draft.possibly(below, 0));
    draft.all_of(&items);
    draft
}

/// All cases, from small to large, and then the searches.
pub fn cases() -> Result<Vec<Case>, String> {
    let usual = random(20, &[Shape::Medium, Shape::Relations], 1_000, usual);
    let large = random(5, &[Shape::Large, Shape::Deep], 50, |draft| draft.nodes.len() >= 300);
    let chains = random(5, &[Shape::NotChains], 50, |draft| draft.nodes.len() >= 200);
    let mut cases = vec![
        Case { name: "M1 to M10", books: small()?, budget: BUDGET },
        Case { name: "usual, 20 random", books: usual, budget: BUDGET },
        Case { name: "large, 5 random", books: large, budget: BUDGET },
        Case { name: "chains of not, 5 random", books: chains, budget: BUDGET },
    ];
    let single: [(&str, u32, Bytes); 20] = [
        ("02-tariff", BUDGET, rules("samples/02-tariff.rules")),
        ("05-fault-repaired", BUDGET, rules("samples/05-fault-repaired.rules")),
        ("08-chain", BUDGET, rules("samples/08-chain.rules")),
        ("F8", BUDGET, rules("tests/books/f8.rules")),
        ("F8, 512 states", BUDGET, rules("tests/books/f8-512.rules")),
        ("lines, 512 states", BUDGET, draft(chain_states(300, 211))),
        ("fans, 512 states", BUDGET, draft(fan_states(50, 9, 2))),
        ("4,095 variables", BUDGET, rules("tests/books/variables-4095.rules")),
        ("fan, 4,095 variables", BUDGET, draft(fan_variables(98, 38, 2))),
        ("5,000 clauses", BUDGET, rules("tests/books/clauses-5000.rules")),
        ("fan, 5,000 clauses", BUDGET, draft(fan_clauses(89, 52, 2))),
        ("F9, refused", BUDGET, rules("tests/books/f9.rules")),
        ("07-tanks", BUDGET, rules("samples/07-tanks.rules")),
        ("16 atoms, 80 clauses", BUDGET, draft(cnf(24, 16, 80))),
        ("36 atoms, 146 clauses", BUDGET, draft(cnf(9, 36, 146))),
        ("5 choices, 70 clauses", BUDGET, draft(choices(5, 18, 12, 70))),
        ("7 choices, 70 clauses", BUDGET, draft(choices(7, 18, 12, 70))),
        ("06-rooms to 10^4", 10_000, rules("samples/06-rooms.rules")),
        ("06-rooms to 10^5", 100_000, rules("samples/06-rooms.rules")),
        ("06-rooms to 10^6", BUDGET, rules("samples/06-rooms.rules")),
    ];
    for (name, budget, book) in single {
        cases.push(Case { name, books: vec![book?], budget });
    }
    Ok(cases)
}

#[cfg(test)]
mod tests {
    use super::*;

    /// Names are told apart in the tables, and the limits are met exactly.
    #[test]
    fn the_largest_builds_stand_at_their_limits() {
        let cases = cases().expect("books");
        let mut names: Vec<_> = cases.iter().map(|case| case.name).collect();
        names.sort_unstable();
        names.dedup();
        assert_eq!(names.len(), cases.len());
        let totals = |name: &str| {
            let case = cases.iter().find(|case| case.name == name).expect("a name");
            check(&case.books[0], 0, Buffers::default().lend()).totals
        };
        for name in ["F8, 512 states", "lines, 512 states", "fans, 512 states"] {
            assert_eq!(totals(name).states, 512, "{name}");
        }
        assert_eq!(totals("4,095 variables").variables, 4095);
        assert_eq!(totals("fan, 4,095 variables").variables, 4095);
        assert_eq!(totals("5,000 clauses").clauses, 5000);
        assert_eq!(totals("fan, 5,000 clauses").clauses, 5000);
    }
}
