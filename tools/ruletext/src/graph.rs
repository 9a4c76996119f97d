//! An answer as a Graphviz picture.

use crate::answer::{Answer, State};
use crate::names::Declared;
use std::fmt::Write;

/// The picture's text: a box for each state with its true atoms, an edge for each record but that
/// of state 1; for other answers one box that says so.
#[must_use]
pub fn graph(answer: &Answer, declared: &Declared) -> String {
    let lines = match answer {
        Answer::Yes(states) => structure(states, declared),
        Answer::No(count) => {
            only(&format!("no: nothing obeys these rules\\nsearch nodes: {count}"))
        }
        Answer::Stopped(count) => only(&format!("stopped: not decided\\nsearch nodes: {count}")),
        Answer::Refused(number, place) => only(&format!("refused {number}, place {place}")),
    };
    format!("digraph structure {{\n    node [shape=box];\n{lines}}}\n")
}

/// The one box of an answer without a structure.
fn only(label: &str) -> String {
    format!("    answer [label=\"{label}\"];\n")
}

fn structure(states: &[State], declared: &Declared) -> String {
    let mut lines = String::new();
    // Writing to a string can't fail.
    for state in states {
        let _ = write!(lines, "    {} [label=\"state {}", state.number, state.number);
        for &atom in &state.atoms {
            let _ = write!(lines, "\\n{}", named(declared.atoms.name(atom), "atom", atom));
        }
        lines.push_str("\"];\n");
    }
    for state in states.iter().filter(|state| state.parent != 0) {
        let relation = state.relation;
        let name = named(declared.relations.name(relation), "relation", relation);
        let _ = writeln!(lines, "    {} -> {} [label=\"{name}\"];", state.parent, state.number);
    }
    lines
}

/// A declared name, which needs no quoting, or the number with what it counts.
fn named(name: Option<&str>, what: &str, number: u16) -> String {
    name.map_or_else(|| format!("{what} {number}"), str::to_owned)
}

#[cfg(test)]
mod tests {
    use super::*;
    use crate::{answer, text};

    const ANSWER: &str = "size 3 5 5\nyes 1\nstate 1 0 0\nstate 2 1 0 0 1\nstate 3 1 1\n";

    #[test]
    fn numbers_without_names() {
        let picture = graph(&answer::read(ANSWER).unwrap(), &Declared::default());
        let wanted = "digraph structure {
    node [shape=box];
    1 [label=\"state 1\"];
    2 [label=\"state 2\\natom 0\\natom 1\"];
    3 [label=\"state 3\"];
    1 -> 2 [label=\"relation 0\"];
    1 -> 3 [label=\"relation 1\"];
}
";
        assert_eq!(picture, wanted);
    }

    #[test]
    fn declared_names() {
        let book = text::read("relation tariff\natom boiler pump").unwrap();
        let picture = graph(&answer::read(ANSWER).unwrap(), &book.declared);
        assert!(picture.contains("2 [label=\"state 2\\nboiler\\npump\"];"));
        assert!(picture.contains("1 -> 2 [label=\"tariff\"];"));
        assert!(picture.contains("1 -> 3 [label=\"relation 1\"];"));
    }

    #[test]
    fn one_box_for_other_answers() {
        for (text, label) in [
            ("size 1 1 1\nno 3", "no: nothing obeys these rules\\nsearch nodes: 3"),
            ("size 1 1 1\nstopped 9", "stopped: not decided\\nsearch nodes: 9"),
            ("refused 14 3", "refused 14, place 3"),
        ] {
            let picture = graph(&answer::read(text).unwrap(), &Declared::default());
            assert!(picture.contains(&format!("    answer [label=\"{label}\"];\n")));
            assert!(!picture.contains("->"));
        }
    }
}
