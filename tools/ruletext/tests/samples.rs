//! Every sample is understood and has an expected answer that can be drawn.

use ruletext::{answer, graph::graph, show::show, text};
use std::{fs, path::PathBuf};

fn samples() -> Vec<PathBuf> {
    let folder = concat!(env!("CARGO_MANIFEST_DIR"), "/../../samples");
    let paths = fs::read_dir(folder).unwrap().map(|entry| entry.unwrap().path());
    paths.filter(|path| path.extension().is_some_and(|name| name == "rules")).collect()
}

#[test]
fn text_to_book_to_text() {
    let samples = samples();
    assert!(samples.len() >= 12);
    for path in samples {
        let book = text::read(&fs::read_to_string(&path).unwrap()).unwrap();
        let bytes = book.bytes();
        assert_eq!(text::read(&show(&bytes)).unwrap().bytes(), bytes, "{}", path.display());
    }
}

#[test]
fn answers_can_be_drawn() {
    for path in samples() {
        let book = text::read(&fs::read_to_string(&path).unwrap()).unwrap();
        let expected = fs::read_to_string(path.with_extension("expected")).unwrap();
        let answer = answer::read(&expected).unwrap();
        assert!(graph(&answer, &book.declared).starts_with("digraph structure {\n"));
    }
}
