//! 000: its examples 1 to 3, and laws of K(m), by the check and by the tableau.

use second::answer::{check, Buffers};
use second::generate::Draft;
use second::tableau::{decide, Verdict};

/// Both procedures on a book; they must agree.
fn satisfiable(draft: &Draft) -> bool {
    let answer = check(&draft.bytes(&[]), u32::MAX, Buffers::default().lend());
    let book = draft.book().expect("a good book");
    match decide(&book, 100_000) {
        Verdict::Satisfiable => assert_eq!(answer.number, 1),
        Verdict::Unsatisfiable => assert_eq!(answer.number, 2),
        Verdict::Unknown => panic!("a small book takes few steps"),
    }
    answer.number == 1
}

/// Three atoms and their negations.
fn three_atoms() -> (Draft, [u16; 3], [u16; 3]) {
    let mut draft = Draft::new(1, 3);
    let atoms = [0, 1, 2].map(|atom| draft.atom(atom));
    let negations = atoms.map(|atom| draft.not(atom));
    (draft, atoms, negations)
}

#[test]
fn example_1_nnf() {
    let (mut draft, [a1, a2, a3], negations) = three_atoms();
    let either = draft.or(a2, a3);
    let (one, other) = (draft.possibly(a1, 0), draft.possibly(either, 0));
    let some = draft.or(one, other);
    let [b1, b2, b3] = negations.map(|negation| draft.necessarily(negation, 0));
    draft.all_of(&[some, b1, b2, b3]);
    assert!(!satisfiable(&draft));
    draft.all_of(&[some, b1, b2]);
    assert!(satisfiable(&draft));
}

#[test]
fn example_2_bnf() {
    let (mut draft, _, [n1, n2, n3]) = three_atoms();
    let [b1, b2, b3] = [n1, n2, n3].map(|negation| draft.necessarily(negation, 0));
    let neither = draft.and(n2, n3);
    let boxed = draft.necessarily(neither, 0);
    let (not_b1, not_boxed) = (draft.not(b1), draft.not(boxed));
    let some = draft.or(not_b1, not_boxed);
    draft.all_of(&[some, b1, b2, b3]);
    assert!(!satisfiable(&draft));
}

#[test]
fn example_3_bnf_with_lift() {
    let (mut draft, _, negations) = three_atoms();
    let none = draft.all_of(&negations);
    let boxed = draft.necessarily(none, 0);
    let not_boxed = draft.not(boxed);
    draft.and(not_boxed, boxed);
    assert!(!satisfiable(&draft));
}

/// box (p implies q) implies (box p implies box q), on one relation; not across two.
#[test]
fn the_law_of_k() {
    for other in [0, 1] {
        let mut draft = Draft::new(2, 2);
        let (p, q) = (draft.atom(0), draft.atom(1));
        let rule = draft.implies(p, q);
        let (all_rule, all_p) = (draft.necessarily(rule, 0), draft.necessarily(p, other));
        let all_q = draft.necessarily(q, 0);
        let then = draft.implies(all_p, all_q);
        let law = draft.implies(all_rule, then);
        draft.not(law);
        assert_eq!(satisfiable(&draft), other == 1);
    }
}

/// dia p is the same as not box not p, and so through any even number of "not".
#[test]
fn box_and_diamond_are_dual() {
    for nots in 0..9 {
        let mut draft = Draft::new(1, 1);
        let p = draft.atom(0);
        let no_p = draft.not(p);
        let (some, mut other) = (draft.possibly(p, 0), draft.necessarily(no_p, 0));
        for _ in 0..nots {
            other = draft.not(other);
        }
        let (there, back) = (draft.implies(some, other), draft.implies(other, some));
        let same = draft.and(there, back);
        draft.not(same);
        assert_eq!(satisfiable(&draft), nots % 2 == 0);
    }
}
