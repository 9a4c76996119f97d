//! The program itself: what it writes, and its exit status.

use std::io::Write;
use std::process::{Command, Stdio};

/// Exit status, output and messages of a command.
fn run(arguments: &[&str], input: &[u8]) -> (i32, Vec<u8>, String) {
    let mut command = Command::new(env!("CARGO_BIN_EXE_ruletext"));
    command.args(arguments).stdin(Stdio::piped()).stdout(Stdio::piped()).stderr(Stdio::piped());
    let mut child = command.spawn().unwrap();
    // A command that reads nothing may be gone by now.
    let _ = child.stdin.take().unwrap().write_all(input);
    let output = child.wait_with_output().unwrap();
    let messages = String::from_utf8(output.stderr).unwrap();
    (output.status.code().unwrap(), output.stdout, messages)
}

#[test]
fn a_book_and_back() {
    let (status, book, messages) = run(&["book"], b"atom p\nrule not p\n");
    assert_eq!((status, book.len(), &messages[..]), (0, 32, ""));
    let (status, text, _) = run(&["text"], &book);
    assert_eq!(status, 0);
    assert_eq!(run(&["book"], &text).1, book);
}

#[test]
fn a_text_that_is_not_understood() {
    let (status, book, messages) = run(&["book"], b"atom p\n\nrule q\n");
    assert_eq!((status, book.len(), &messages[..]), (1, 0, "line 3: no atom `q` is declared\n"));
}

#[test]
fn a_picture_with_names() {
    let samples = concat!(env!("CARGO_MANIFEST_DIR"), "/../../samples/");
    let answer = std::fs::read(format!("{samples}02-tariff.expected")).unwrap();
    let (status, picture, _) = run(&["graph", &format!("{samples}02-tariff.rules")], &answer);
    let picture = String::from_utf8(picture).unwrap();
    assert_eq!(status, 0);
    assert!(picture.contains("    3 [label=\"state 3\\nheat-pump\\ncheap\"];\n"), "{picture}");
    assert!(picture.contains("    1 -> 3 [label=\"tariff\"];\n"), "{picture}");
}

#[test]
fn a_picture_of_no_answer() {
    let (status, picture, messages) = run(&["graph"], b"size 1 1 1\nyes\n");
    assert_eq!((status, picture.len()), (1, 0));
    assert_eq!(messages, "line 2: a number is missing at the end\n");
}

#[test]
fn names_from_a_text_that_is_missing() {
    let (status, _, messages) = run(&["graph", "no-such-text"], b"refused 11 0\n");
    assert_eq!(status, 1);
    assert!(messages.starts_with("no-such-text: "), "{messages}");
}

#[test]
fn help_and_unknown_commands() {
    assert_eq!(run(&["help"], b"").0, 0);
    for arguments in [&[][..], &["books"], &["book", "file"], &["graph", "a", "b"]] {
        let (status, output, messages) = run(arguments, b"");
        assert_eq!((status, output.len()), (1, 0));
        assert_eq!(messages, "`ruletext help` shows the commands\n");
    }
}
