//! Random formulas, written with no more parentheses than needed, are read as they were meant.

mod common;

use common::Random;
use ruletext::node::{Node, AND, ATOM, BOX, DIAMOND, IMPLIES, NOT, OR};
use ruletext::{book::Book, text};

/// A formula: an atom, a prefix with its part, or a pair.
#[derive(Debug, PartialEq)]
enum Formula {
    Atom(u16),
    Prefix(u16, u16, Box<Formula>),
    Pair(u16, Box<Formula>, Box<Formula>),
}

use Formula::{Atom, Pair, Prefix};

fn random_formula(random: &mut Random, depth: usize) -> Formula {
    let choice = if depth == 0 { 0 } else { random.below(8) };
    let part = |random: &mut Random| Box::new(random_formula(random, depth - 1));
    match choice {
        0 | 1 => Atom(random.one_of(&[0, 1, 2])),
        2 => Prefix(NOT, 0, part(random)),
        3 => Prefix(random.one_of(&[BOX, DIAMOND]), random.one_of(&[0, 1]), part(random)),
        _ => {
            let kind = random.one_of(&[AND, OR, IMPLIES]);
            Pair(kind, part(random), part(random))
        }
    }
}

/// How strongly a formula's outermost word binds.
fn binds(formula: &Formula) -> u8 {
    match formula {
        Atom(_) | Prefix(..) => 4,
        Pair(AND, ..) => 3,
        Pair(OR, ..) => 2,
        Pair(..) => 1,
    }
}

/// A part, in parentheses if it binds less than it must.
fn part(formula: &Formula, least: u8) -> String {
    let text = written(formula);
    if binds(formula) < least {
        return format!("({text})");
    }
    text
}

fn written(formula: &Formula) -> String {
    let own = binds(formula);
    match formula {
        Atom(atom) => format!("a{atom}"),
        Prefix(NOT, _, inner) => format!("not {}", part(inner, own)),
        Prefix(BOX, relation, inner) => format!("after every r{relation}: {}", part(inner, own)),
        Prefix(_, relation, inner) => format!("after some r{relation}: {}", part(inner, own)),
        Pair(AND, left, right) => format!("{} and {}", part(left, own), part(right, own + 1)),
        Pair(OR, left, right) => format!("{} or {}", part(left, own), part(right, own + 1)),
        Pair(_, left, right) => format!("{} implies {}", part(left, own + 1), part(right, own)),
    }
}

/// The formula of a node; children stand below their node.
fn unfolded(nodes: &[Node], place: u16) -> Formula {
    let Node { kind, first, second, relation } = nodes[usize::from(place)];
    let child = |child: u16| {
        assert!(child < place);
        Box::new(unfolded(nodes, child))
    };
    match kind {
        ATOM => Atom(first),
        NOT | BOX | DIAMOND => Prefix(kind, relation, child(first)),
        _ => Pair(kind, child(first), child(second)),
    }
}

fn read(rules: &[String]) -> Book {
    let declared = String::from("relation r0 r1\natom a0 a1 a2\n");
    text::read(&rules.iter().fold(declared, |text, rule| text + "rule " + rule + "\n")).unwrap()
}

fn root(book: &Book) -> Formula {
    let [.., root, _, _] = book.computed();
    unfolded(&book.nodes, u16::try_from(root).unwrap())
}

fn all_distinct(nodes: &[Node]) -> bool {
    (1..nodes.len()).all(|place| !nodes[..place].contains(&nodes[place]))
}

#[test]
fn one_formula() {
    let mut random = Random::new(7);
    for _ in 0..20_000 {
        let formula = random_formula(&mut random, 5);
        let book = read(&[written(&formula)]);
        assert_eq!(root(&book), formula);
        assert!(all_distinct(&book.nodes));
    }
}

#[test]
fn several_rules() {
    let mut random = Random::new(8);
    for _ in 0..5_000 {
        let rules: Vec<_> = (0..=random.below(4)).map(|_| random_formula(&mut random, 3)).collect();
        let book = read(&rules.iter().map(written).collect::<Vec<_>>());
        let pair = |all, rule| Pair(AND, Box::new(all), Box::new(rule));
        assert_eq!(Some(root(&book)), rules.into_iter().reduce(pair));
        assert!(all_distinct(&book.nodes));
    }
}
