//! The commands: `book`, `text`, `graph` and `help`.

use ruletext::{answer, graph, names::Declared, show, text, words};
use std::error::Error;
use std::ffi::OsString;
use std::io::{self, Read, Write};
use std::path::Path;
use std::process::ExitCode;
use std::{env, fs};

const HELP: &str = include_str!("help.txt");

fn main() -> ExitCode {
    let arguments: Vec<OsString> = env::args_os().skip(1).collect();
    match output(&arguments).and_then(|bytes| written(&bytes)) {
        Ok(()) => ExitCode::SUCCESS,
        Err(error) => {
            eprintln!("{error}");
            ExitCode::FAILURE
        }
    }
}

/// What a command writes.
fn output(arguments: &[OsString]) -> Result<Vec<u8>, Box<dyn Error>> {
    let command = arguments.first().and_then(|command| command.to_str());
    match (command, arguments) {
        (Some("book"), [_]) => Ok(text::read(words::utf8(&input()?)?)?.bytes()),
        (Some("text"), [_]) => Ok(show::show(&input()?).into_bytes()),
        (Some("graph"), [_]) => picture(&Declared::default()),
        (Some("graph"), [_, path]) => picture(&declared(Path::new(path))?),
        (Some("help"), [_]) => Ok(HELP.into()),
        _ => Err("`ruletext help` shows the commands".into()),
    }
}

fn picture(declared: &Declared) -> Result<Vec<u8>, Box<dyn Error>> {
    let answer = answer::read(words::utf8(&input()?)?)?;
    Ok(graph::graph(&answer, declared).into_bytes())
}

/// The names that a text declares; its path stands before what is wrong with it.
fn declared(path: &Path) -> Result<Declared, Box<dyn Error>> {
    let bytes = fs::read(path).map_err(|error| format!("{}: {error}", path.display()))?;
    let book = words::utf8(&bytes).and_then(text::read);
    Ok(book.map_err(|fault| format!("{}: {fault}", path.display()))?.declared)
}

fn input() -> io::Result<Vec<u8>> {
    let mut bytes = Vec::new();
    io::stdin().lock().read_to_end(&mut bytes)?;
    Ok(bytes)
}

fn written(bytes: &[u8]) -> Result<(), Box<dyn Error>> {
    let mut out = io::stdout().lock();
    out.write_all(bytes)?;
    Ok(out.flush()?)
}
