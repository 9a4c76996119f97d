//! 01, "Answers by number": order of refusals, places, and what the lent buffers hold.

use second::answer::{check, Answer, Buffers, CLAUSE_NUMBERS, STATE_NUMBERS};
use second::book::{parse, Node, Refusal};
use second::build::Totals;
use second::generate::{
    any_book, at_limits, binary_states, chain_states, extend, fan_clauses, fan_states,
    fan_variables, flip_bits, header_damage, note, offset_books, record_damage, size_books,
    truncate, Draft, Limit, Rng,
};
use second::program::output;

const EXTRA: usize = 5;
const FILL: u8 = 0x5A;

/// M3 with a second relation and a second atom, both unused.
fn sample() -> Draft {
    let mut draft = Draft::new(2, 2);
    let p = draft.atom(0);
    let no_p = draft.not(p);
    let (one, other) = (draft.possibly(p, 0), draft.possibly(no_p, 0));
    draft.and(one, other);
    draft
}

fn refused(number: u16, place: u16) -> Answer {
    Answer { number, place, ..Answer::default() }
}

/// Checks and holds the buffers against what the answer's row says of them.
fn run(bytes: &[u8], budget: u32) -> Answer {
    let mut buffers = Buffers::filled(EXTRA, FILL);
    let answer = check(bytes, budget, buffers.lend());
    let untouched = Buffers::filled(EXTRA, FILL);
    if matches!(answer.number, 10..=14) {
        assert_eq!(buffers, untouched);
        return answer;
    }
    let (states, rest) = buffers.states.split_at(STATE_NUMBERS);
    assert_eq!(rest, [u16::from(FILL); EXTRA]);
    let (words, rest) = buffers.words.split_at(4095);
    assert_eq!(rest, [u32::from(FILL); EXTRA]);
    let (clauses, rest) = buffers.clauses.split_at(CLAUSE_NUMBERS);
    assert_eq!(rest, [i16::from(FILL); EXTRA]);
    let (values, rest) = buffers.values.split_at(4095);
    assert_eq!(rest, [FILL; EXTRA]);
    let totals = answer.totals;
    assert!(states[3 * totals.states..].iter().all(|number| *number == 0));
    assert!(words[totals.variables..].iter().all(|word| *word == 0));
    assert!(words[..totals.variables].iter().all(|word| *word != 0));
    assert!(clauses[3 * totals.clauses..].iter().all(|literal| *literal == 0));
    assert!(values[totals.variables..].iter().all(|value| *value == 0));
    let most = u8::from(answer.number == 1);
    assert!(values.iter().all(|value| *value <= most));
    answer
}

#[test]
fn a_short_buffer_comes_first_and_touches_nothing() {
    for short in 0..4 {
        let mut buffers = Buffers::filled(0, FILL);
        match short {
            0 => drop(buffers.states.pop()),
            1 => drop(buffers.words.pop()),
            2 => drop(buffers.clauses.pop()),
            _ => drop(buffers.values.pop()),
        }
        let before = buffers.clone();
        for bytes in [&[][..], &sample().bytes(&[])] {
            assert_eq!(check(bytes, 10, buffers.lend()), refused(10, 0));
            assert_eq!(buffers, before);
        }
    }
}

#[test]
fn fewer_than_16_bytes_are_11() {
    let bytes = sample().bytes(&[]);
    for length in 0..16 {
        assert_eq!(run(&bytes[..length], 10), refused(11, 0));
    }
}

#[test]
fn header_damage_is_refused_by_number() {
    let bytes = sample().bytes(b"abcde");
    for damaged in header_damage(&bytes) {
        let number = run(&damaged.bytes, 10).number;
        let label = damaged.label.as_str();
        let expected = match label.split(' ').collect::<Vec<_>>()[..] {
            ["R", "1" | "16"] | ["P", "1" | "256"] | ["root", "0" | "4"] => 1,
            ["R" | "P", _] => 12,
            ["N", "0" | "1" | "4" | "513" | "65535"] => 12,
            ["N", _] => 13,
            ["root", _] => 12,
            ["offset", "21", "total", "61"] => 1,
            ["offset", ..] | ["slice", ..] => 13,
            _ => panic!("unknown label {label}"),
        };
        assert_eq!(number, expected, "{label}");
    }
}

#[test]
fn offsets_at_the_bounds() {
    for damaged in offset_books(&sample()) {
        let refusal = parse(&damaged.bytes).err();
        let good = !matches!(damaged.label.as_str(), "records at 15" | "records at 4097");
        assert_eq!(refusal, (!good).then_some(Refusal::Length), "{}", damaged.label);
        run(&damaged.bytes, 10);
    }
}

#[test]
fn sizes_at_the_bounds() {
    for damaged in size_books() {
        let answer = run(&damaged.bytes, 10);
        let parts: Vec<&str> = damaged.label.split([' ', ',']).collect();
        let good = match parts[..] {
            ["N", nodes, "root", root] => matches!(nodes, "1" | "511" | "512") && root != nodes,
            ["R", relations, ..] => matches!(relations, "1" | "16"),
            ["P", atoms, ..] => matches!(atoms, "1" | "256"),
            _ => panic!("unknown label {}", damaged.label),
        };
        assert_eq!(answer.number, if good { 1 } else { 12 }, "{}", damaged.label);
    }
}

/// The rules of a node record by the letter, as a list of what must hold.
fn keeps_rules(record: [u16; 4], own: u16, relations: u16, atoms: u16) -> bool {
    let [kind, first, second, relation] = record;
    match kind {
        1 => first < atoms && second == 0 && relation == 0,
        2 => first < own && second == 0 && relation == 0,
        3..=5 => first < own && second < own && relation == 0,
        6 | 7 => first < own && second == 0 && relation < relations,
        _ => false,
    }
}

#[test]
fn record_damage_names_the_lowest_bad_node() {
    let mut draft = sample();
    draft.necessarily(4, 1);
    draft.implies(5, 0);
    draft.or(0, 6);
    let bytes = draft.bytes(b"n");
    let mut refusals = 0;
    for node in 0..draft.nodes.len() as u16 {
        for damaged in record_damage(&bytes, node) {
            let at = 17 + 8 * usize::from(node);
            let field = |n: usize| {
                u16::from_le_bytes([damaged.bytes[at + 2 * n], damaged.bytes[at + 2 * n + 1]])
            };
            let record = [field(0), field(1), field(2), field(3)];
            let answer = run(&damaged.bytes, 10);
            if keeps_rules(record, node, 2, 2) {
                assert!(matches!(answer.number, 1..=3), "{}", damaged.label);
            } else {
                refusals += 1;
                assert_eq!(answer, refused(14, node), "{}", damaged.label);
            }
        }
    }
    assert!(refusals > 100);
}

#[test]
fn of_two_bad_nodes_the_lower_is_the_place() {
    let mut draft = sample();
    draft.nodes[3] = Node::Atom(2);
    draft.nodes[1] = Node::Not(1);
    assert_eq!(run(&draft.bytes(&[]), 10), refused(14, 1));
}

#[test]
fn limits_are_hit_exactly() {
    let books = at_limits(&mut Rng::new(11), 20);
    for limit in [Limit::States, Limit::Variables, Limit::Clauses] {
        for value in limit.most() - 1..=limit.most() + 1 {
            let hits = |family| {
                let fits = |book: &&second::generate::LimitBook| {
                    book.limit == limit && book.value == value && book.family == family
                };
                books.iter().filter(fits).count()
            };
            println!("{limit:?} {value}: {} random", hits("random_at"));
            assert!(hits("random_at") > 0, "{limit:?} {value}");
        }
    }
    for book in books {
        let answer = run(&book.draft.bytes(&[]), 1);
        let totals = answer.totals;
        let label = format!("{} {:?} {}", book.family, book.limit, book.value);
        if book.value > book.limit.most() {
            assert_eq!(answer, refused(15, 0), "{label}");
            assert_eq!(run(&book.draft.bytes(&[]), 0), refused(15, 0), "{label}");
            continue;
        }
        let of = match book.limit {
            Limit::States => totals.states,
            Limit::Variables => totals.variables,
            Limit::Clauses => totals.clauses,
        };
        assert_eq!(of, book.value, "{label}");
    }
}

/// The totals that the families state in their comments.
#[test]
fn families_keep_their_formulas() {
    let totals = |draft: Draft| {
        let Totals { states, variables, clauses } = run(&draft.bytes(&[]), 1).totals;
        (states, variables, clauses)
    };
    for (a, b) in (1..9).flat_map(|a| (1..9).map(move |b| (a, b))) {
        let states = 1 + a + b.min(a);
        assert_eq!(totals(chain_states(a, b.min(a))), (states, states + 2, states + 2));
        for c in 0..4 {
            let fan = totals(fan_states(a, b, c));
            assert_eq!(fan.0, 1 + a + b * (1 + a) + c);
            let base = 3 * a + 2 * b - 1 + c;
            assert_eq!(totals(fan_variables(a, b, c)), (1 + a, base + a * b, base + a * b));
            assert_eq!(totals(fan_clauses(a, b, c)), (1 + a, base, base + a * b));
        }
    }
    assert_eq!(totals(binary_states(1)), (512, 1024, 1024));
}

#[test]
fn a_note_of_any_length_changes_nothing() {
    let plain = run(&sample().bytes(&[]), 10);
    for length in 0..=4080 {
        assert_eq!(run(&sample().bytes(&vec![0xFF; length]), 10), plain);
    }
    assert_eq!(run(&sample().bytes(&[0xFF; 4081]), 10), refused(13, 0));
}

/// Nothing that stands in the bytes makes the check or the program fail.
#[test]
fn any_bytes_have_an_answer() {
    let mut rng = Rng::new(12);
    for round in 0..3000 {
        let bytes = any_book(&mut rng).bytes(&note(&mut rng));
        let times = rng.between(1, 6);
        let damaged = match round % 4 {
            0 => flip_bits(&mut rng, &bytes, times),
            1 => truncate(&mut rng, &bytes),
            2 => extend(&mut rng, &bytes, 40),
            _ => (0..rng.below(200)).map(|_| rng.draw() as u8).collect(),
        };
        let answer = run(&damaged, 20);
        assert!(matches!(answer.number, 1..=3 | 11..=15));
        if answer.number >= 10 {
            let line = format!("refused {} {}\n", answer.number, answer.place);
            assert_eq!(output(&damaged), line);
        }
    }
}
