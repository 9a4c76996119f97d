//! Any text is understood, or refused with one of its lines; the same for any answer.

mod common;

use common::Random;
use ruletext::{answer, text};

const WORDS: &str =
    "relation atom rule node note bytes cut relations atoms nodes root offset total \
                     kind first second by not and or implies box diamond after every some \
                     ( ) : a a r 0 1 ff 65536 #";
const ANSWER_WORDS: &str = "size yes no stopped refused state 0 1 2 3 70000 x";

/// A start that is understood, and random words after it.
fn random_text(random: &mut Random, starts: &[&str], words: &str) -> String {
    let words: Vec<&str> = words.split_whitespace().collect();
    let mut text = String::from(random.one_of(starts));
    for _ in 0..random.below(10) {
        text.push_str(random.one_of(&words));
        text.push_str(random.one_of(&["", " ", " ", " ", " ", "\n", "\n", "\n "]));
    }
    text
}

#[test]
fn random_words() {
    let mut random = Random::new(5);
    let mut understood = 0;
    let starts = ["", "relation r\natom a\n", "relation r\natom a\nrule ", "node ", "bytes "];
    for _ in 0..50_000 {
        let text = random_text(&mut random, &starts, WORDS);
        match text::read(&text) {
            Ok(book) => understood += usize::from(!book.bytes().is_empty()),
            Err(fault) => assert!((1..=text.lines().count()).contains(&fault.line), "{text}"),
        }
    }
    assert!(understood > 1000, "{understood}");
}

#[test]
fn random_answers() {
    let mut random = Random::new(6);
    let mut understood = 0;
    let starts = ["", "size 3 5 5\n", "size 3 5 5\nyes 1\nstate 1 0 0 ", "refused 14 "];
    for _ in 0..50_000 {
        let text = random_text(&mut random, &starts, ANSWER_WORDS);
        match answer::read(&text) {
            Ok(_) => understood += 1,
            // A line that is missing counts too.
            Err(fault) => assert!((1..=text.lines().count() + 1).contains(&fault.line), "{text}"),
        }
    }
    assert!(understood > 1000, "{understood}");
}
