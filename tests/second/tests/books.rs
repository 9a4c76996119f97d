//! 01, "Books to try": the rows M1 to M10, the books that are run only, and the program.

use second::answer::{check, Answer, Buffers};
use second::book::Node::{self, And, Atom, Implies, Not, Or};
use second::book::{encode, parse};
use second::build::Totals;
use second::generate::{binary_states, Draft};
use second::program::output;
use second::structure::{kripke, read_back};
use second::truth::{evaluate, root_holds};
use std::io::Write;
use std::process::{Command, Stdio};
use std::time::{Duration, Instant};

const BUDGET: u32 = 1_000_000;

fn dia(child: u16) -> Node {
    Node::Diamond { child, relation: 0 }
}

fn nec(child: u16, relation: u16) -> Node {
    Node::Box { child, relation }
}

/// A book with the last node as root, one relation unless given, atoms p and q.
fn bytes(relations: u16, nodes: &[Node]) -> Vec<u8> {
    encode(relations, 2, nodes, nodes.len() as u16 - 1, &[])
}

fn run(bytes: &[u8], budget: u32) -> (Answer, Buffers) {
    let mut buffers = Buffers::filled(0, 0x55);
    let answer = check(bytes, budget, buffers.lend());
    (answer, buffers)
}

/// The whole of what a row says: totals, clauses, verdict and count.
fn row(bytes: &[u8], sizes: (usize, usize), clauses: &[[i16; 3]], verdict: u16, count: u32) {
    let (answer, buffers) = run(bytes, BUDGET);
    assert_eq!((answer.number, answer.place, answer.count), (verdict, 0, count));
    let totals = answer.totals;
    assert_eq!((totals.states, totals.variables), sizes);
    assert_eq!(totals.clauses, clauses.len());
    let (written, rest) = buffers.clauses.split_at(3 * clauses.len());
    assert_eq!(written, clauses.as_flattened());
    assert!(rest.iter().all(|literal| *literal == 0));
    if verdict == 1 {
        let book = parse(bytes).expect("a good book");
        let living = read_back(totals, &buffers.states, &buffers.words, &buffers.values);
        assert!(root_holds(&book, &kripke(&living), 0));
    } else {
        assert!(buffers.values.iter().all(|value| *value == 0));
    }
}

#[test]
fn m1() {
    row(&bytes(1, &[Atom(0), Not(0)]), (1, 1), &[[-1, 0, 0]], 1, 1);
}

#[test]
fn m2() {
    let nodes = [Atom(0), Not(0), dia(0), nec(1, 0), And(2, 3)];
    let clauses = [[1, 0, 0], [-1, 2, 0], [-1, 3, 0], [-2, 4, 0], [-3, -2, -4]];
    row(&bytes(1, &nodes), (2, 4), &clauses, 2, 1);
}

#[test]
fn m3() {
    let book = bytes(1, &[Atom(0), Not(0), dia(0), dia(1), And(2, 3)]);
    let clauses = [[1, 0, 0], [-1, 2, 0], [-1, 3, 0], [-2, 4, 0], [-3, -5, 0]];
    row(&book, (3, 5), &clauses, 1, 1);
    let text = "size 3 5 5\nyes 1\nstate 1 0 0\nstate 2 1 0 0\nstate 3 1 0\n";
    assert_eq!(output(&book), text);
}

#[test]
fn m4() {
    let book = bytes(1, &[Atom(0), Atom(1), Or(0, 1)]);
    row(&book, (1, 3), &[[1, 0, 0], [-1, 2, 3]], 1, 2);
    for (budget, number, count) in [(0, 3, 0), (1, 3, 1), (2, 1, 2), (u32::MAX, 1, 2)] {
        let (answer, _) = run(&book, budget);
        assert_eq!((answer.number, answer.count), (number, count));
    }
}

#[test]
fn m5() {
    row(&bytes(1, &[Atom(0), Or(0, 0)]), (1, 2), &[[1, 0, 0], [-1, 2, 2]], 1, 1);
}

#[test]
fn m6() {
    row(&bytes(1, &[Atom(0), Implies(0, 0)]), (1, 2), &[[1, 0, 0], [-1, -2, 2]], 1, 2);
}

#[test]
fn m7() {
    row(&bytes(1, &[Atom(0), Not(0), And(0, 1), nec(2, 0)]), (1, 1), &[[1, 0, 0]], 1, 1);
}

#[test]
fn m8() {
    let clauses = [[1, 0, 0], [-1, 2, 0], [-2, 3, 0], [-2, -3, 0]];
    row(&bytes(1, &[Atom(0), Not(0), And(0, 1), dia(2)]), (2, 3), &clauses, 2, 1);
}

#[test]
fn m9() {
    let nodes = [Atom(0), Not(0), dia(0), nec(1, 1), And(2, 3)];
    let clauses = [[1, 0, 0], [-1, 2, 0], [-1, 3, 0], [-2, 4, 0]];
    row(&bytes(2, &nodes), (2, 4), &clauses, 1, 1);
}

#[test]
fn m10() {
    let clauses = [[1, 0, 0], [-1, 2, 3], [-2, 4, 0], [-3, 5, 0]];
    row(&bytes(1, &[Atom(0), dia(0), dia(0), Or(1, 2)]), (3, 5), &clauses, 1, 3);
}

#[test]
fn the_records_and_words_of_m3() {
    let (_, buffers) = run(&bytes(1, &[Atom(0), Not(0), dia(0), dia(1), And(2, 3)]), BUDGET);
    assert_eq!(buffers.states[..12], [0, 0, 0, 1, 0, 2, 1, 0, 3, 0, 0, 0]);
    let words = [2048 + 8, 2048 + 4, 2048 + 6, 2 * 2048 + 1024, 3 * 2048 + 1024, 0];
    assert_eq!(buffers.words[..6], words);
    assert_eq!(buffers.values[..6], [1, 1, 1, 1, 0, 0]);
}

/// (p or q) and (p or not q) and (not p or q) and (not p or not q).
#[test]
fn four_clauses_over_two_atoms() {
    let mut draft = Draft::new(1, 2);
    let (p, q) = (draft.atom(0), draft.atom(1));
    let (no_p, no_q) = (draft.not(p), draft.not(q));
    let rows = [(p, q), (p, no_q), (no_p, q), (no_p, no_q)].map(|(a, b)| draft.or(a, b));
    draft.all_of(&rows);
    let (answer, _) = run(&draft.bytes(&[]), BUDGET);
    assert_eq!((answer.number, answer.count), (2, 3));
}

#[test]
fn f8_and_its_neighbours() {
    let (answer, _) = run(&binary_states(0).bytes(&[]), BUDGET);
    assert_eq!(answer.number, 1);
    let totals = answer.totals;
    assert_eq!((totals.states, totals.variables, totals.clauses), (511, 1021, 1021));
    let (answer, _) = run(&binary_states(1).bytes(&[]), BUDGET);
    assert_eq!((answer.number, answer.totals.states), (1, 512));
    let (answer, _) = run(&binary_states(2).bytes(&[]), BUDGET);
    assert_eq!(answer, Answer { number: 15, ..Answer::default() });
}

#[test]
fn f9_is_refused() {
    let mut f9 = binary_states(0);
    let f8 = f9.root;
    let (left, right) = (f9.possibly(f8, 0), f9.possibly(f8, 1));
    f9.and(left, right);
    for budget in [0, BUDGET] {
        let (answer, buffers) = run(&f9.bytes(&[]), budget);
        assert_eq!(answer, Answer { number: 15, ..Answer::default() });
        assert_eq!(buffers, Buffers::default());
    }
    assert_eq!(output(&f9.bytes(&[])), "refused 15 0\n");
}

#[test]
fn a_chain_of_500_is_evaluated_quickly() {
    let mut draft = Draft::new(1, 1);
    draft.atom(0);
    for _ in 0..500 {
        draft.and(draft.root, draft.root);
    }
    let start = Instant::now();
    let (answer, buffers) = run(&draft.bytes(&[]), BUDGET);
    assert_eq!((answer.number, answer.count), (1, 1));
    let living = read_back(answer.totals, &buffers.states, &buffers.words, &buffers.values);
    let book = draft.book().expect("a good book");
    let table = evaluate(&book, &kripke(&living));
    assert!(table.holds(500, 0) && table.holds(0, 0));
    assert!(start.elapsed() < Duration::from_secs(2));
}

/// By records, words and values alone: state 2's maker is 0, and state 4 is under it. State 3
/// lives, and p is true there. No record is an edge to or from state 0.
#[test]
fn a_state_with_maker_zero_is_dead() {
    let states = [0, 0, 0, 1, 0, 2, 1, 0, 3, 2, 0, 4];
    let totals = Totals { states: 4, variables: 5, clauses: 0 };
    let words = [2048, 2048 + 2, 2048 + 4, 2 * 2048 + 6, 3 * 2048 + 1024];
    let living = read_back(totals, &states, &words, &[1, 0, 1, 1, 1]);
    let numbers: Vec<_> = living.iter().map(|one| (one.number, one.parent)).collect();
    assert_eq!(numbers, [(1, 0), (3, 1)]);
    assert_eq!(living[1].atoms, [0]);
    let kripke = kripke(&living);
    assert_eq!(kripke.successors(0, 0).collect::<Vec<_>>(), [1]);
    assert_eq!(kripke.successors(1, 0).count(), 0);
}

fn program(input: &[u8]) -> String {
    let mut child = Command::new(env!("CARGO_BIN_EXE_second"))
        .stdin(Stdio::piped())
        .stdout(Stdio::piped())
        .spawn()
        .expect("the program starts");
    // The program may close its input early; what it prints is what counts.
    let _ = child.stdin.take().expect("its input").write_all(input);
    let out = child.wait_with_output().expect("its output");
    assert!(out.status.success());
    String::from_utf8(out.stdout).expect("text")
}

#[test]
fn the_program_prints_what_the_library_says() {
    let m3 = bytes(1, &[Atom(0), Not(0), dia(0), dia(1), And(2, 3)]);
    let m2 = bytes(1, &[Atom(0), Not(0), dia(0), nec(1, 0), And(2, 3)]);
    for input in [&m3[..], &m2, &m3[..15], &m3[..16], &[], &[1; 8192], &[1; 8193], &[1; 70_000]] {
        assert_eq!(program(input), output(input));
    }
    assert_eq!(program(&m2), "size 2 4 5\nno 1\n");
    assert_eq!(program(&[0; 15]), "refused 11 0\n");
    assert_eq!(program(&[0; 16]), "refused 12 0\n");
}

#[test]
fn a_longer_input_is_judged_as_8193_bytes() {
    let mut draft = Draft::new(1, 1);
    draft.atom(0);
    while draft.room() > 0 {
        draft.and(draft.root, draft.root);
    }
    let mut longest = draft.bytes(&[7; 4080]);
    assert_eq!(longest.len(), 8192);
    assert!(program(&longest).starts_with("size 1 512 1023\nyes 1\n"));
    longest.push(0);
    assert_eq!(program(&longest), "refused 13 0\n");
    longest.push(0);
    assert_eq!(program(&longest), "refused 13 0\n");
}
