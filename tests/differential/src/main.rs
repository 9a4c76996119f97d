//! `differential`: compares the check in libhost.a with the second program on random and damaged
//! books. The last line is 'differential: N books agree', and the exit status 0 only then.

use differential::compare::Compare;
use differential::run::{run, run_unit, Failure};
use differential::self_test;
use differential::stream::Stream;
use differential::tally::Tally;
use second::generate::Rng;
use std::path::Path;
use std::process::ExitCode;
use std::time::Instant;
use std::{env, fs, thread};

const HELP: &str = "\
differential [--quick] [--threads N]   compare 200,000 random and 200,000 damaged books
                                       (quick: 10,000 and 10,000)
differential --self-test               show that the comparison can fail
differential --book FILE               compare one book
differential --unit STREAM NUMBER      compare the books of one unit again, as a failure names it";

const BOOKS: u64 = 200_000;
const QUICK: u64 = 10_000;

/// Failures that are told in full.
const REPORTED: usize = 10;

/// Where failing books are written.
const FAILED: &str = concat!(env!("CARGO_MANIFEST_DIR"), "/target/failed");

struct Options {
    books: u64,
    threads: usize,
}

fn main() -> ExitCode {
    let words: Vec<String> = env::args().skip(1).collect();
    let words: Vec<&str> = words.iter().map(String::as_str).collect();
    let threads = thread::available_parallelism().map_or(1, |cores| cores.get().min(4));
    let mut options = Options { books: BOOKS, threads };
    let mut rest = &words[..];
    loop {
        rest = match rest {
            [] => return all(&options),
            ["--self-test"] => return self_tested(),
            ["--book", file] => return one(file),
            ["--unit", stream, number] => return unit(stream, number),
            ["--quick", rest @ ..] => {
                options.books = QUICK;
                rest
            }
            ["--threads", number, rest @ ..] if number.parse().is_ok_and(|n: usize| n > 0) => {
                options.threads = number.parse().unwrap_or(1);
                rest
            }
            _ => {
                eprintln!("{HELP}");
                return ExitCode::from(2);
            }
        }
    }
}

/// Both streams.
fn all(options: &Options) -> ExitCode {
    let start = Instant::now();
    let mut tally = Tally::default();
    let mut failures = Vec::new();
    for stream in [Stream::WellFormed, Stream::Damaged] {
        let (more, failed) = run(stream, options.books, options.threads);
        println!("{}: {} books, {:.1?}", stream.name(), more.books, start.elapsed());
        tally.add(&more);
        failures.extend(failed);
    }
    println!("{tally}");
    let missing = tally.missing();
    if missing.is_empty() || !failures.is_empty() {
        return verdict(&tally, &failures);
    }
    missing.iter().for_each(|what| println!("not compared: {what}"));
    println!("differential: not everything was compared");
    ExitCode::FAILURE
}

fn report(failure: &Failure) {
    let Failure { stream, unit, place, label, fault, .. } = failure;
    println!("{} {unit}.{place} ({label}), budget {}: {}", stream.name(), fault.budget, fault.text);
    match failure.keep(Path::new(FAILED)) {
        Ok(path) => println!("  the book is in {}", path.display()),
        Err(error) => println!("  the book could not be written: {error}"),
    }
}

fn self_tested() -> ExitCode {
    let report = self_test::run();
    report.missed.iter().for_each(|what| println!("not noticed: {what}"));
    let noticed = report.tried - report.missed.len();
    println!("differential: {noticed} of {} changes noticed", report.tried);
    if report.missed.is_empty() && report.tried > 0 {
        ExitCode::SUCCESS
    } else {
        ExitCode::FAILURE
    }
}

/// The books of one unit.
fn unit(stream: &str, number: &str) -> ExitCode {
    let (Some(stream), Ok(number)) = (Stream::named(stream), number.parse()) else {
        eprintln!("{HELP}");
        return ExitCode::from(2);
    };
    let mut compare = Compare::default();
    let failures = run_unit(&mut compare, stream, number);
    println!("{}", compare.tally);
    verdict(&compare.tally, &failures)
}

/// The last line, and the exit status.
fn verdict(tally: &Tally, failures: &[Failure]) -> ExitCode {
    failures.iter().take(REPORTED).for_each(report);
    if failures.is_empty() {
        println!("differential: {} books agree", tally.books);
        return ExitCode::SUCCESS;
    }
    println!("differential: {} books DISAGREE, {} agree", failures.len(), tally.books);
    ExitCode::FAILURE
}

/// One book from a file, with several choices of what is compared.
fn one(file: &str) -> ExitCode {
    let book = match fs::read(file) {
        Ok(book) => book,
        Err(error) => {
            eprintln!("{file}: {error}");
            return ExitCode::from(2);
        }
    };
    let mut compare = Compare::default();
    for seed in 0..64 {
        if let Err(fault) = compare.book(&book, &mut Rng::new(seed)) {
            println!("budget {}: {}", fault.budget, fault.text);
            println!("differential: 1 book DISAGREES");
            return ExitCode::FAILURE;
        }
    }
    println!("{}", compare.tally);
    println!("differential: 1 book agrees");
    ExitCode::SUCCESS
}
