//! Runs the streams on some threads and gathers what failed.

use crate::compare::{Compare, Fault};
use crate::stream::Stream;
use crate::tally::Tally;
use std::fs;
use std::io;
use std::path::{Path, PathBuf};
use std::sync::atomic::{AtomicU64, Ordering};
use std::sync::Mutex;
use std::thread;

/// After so many failures the run ends.
const FAILURES: usize = 10;

/// A book on which the two programs disagree.
#[derive(Debug)]
pub struct Failure {
    pub stream: Stream,
    pub unit: u64,
    pub place: usize,
    pub label: String,
    pub bytes: Vec<u8>,
    pub fault: Fault,
}

impl Failure {
    /// Writes the book into the folder and gives the file's name.
    pub fn keep(&self, folder: &Path) -> io::Result<PathBuf> {
        fs::create_dir_all(folder)?;
        let name = format!("{}-{}-{}.book", self.stream.name(), self.unit, self.place);
        let path = folder.join(name);
        fs::write(&path, &self.bytes)?;
        Ok(path)
    }
}

/// Compares at least so many books of a stream.
pub fn run(stream: Stream, books: u64, threads: usize) -> (Tally, Vec<Failure>) {
    let units = books.div_ceil(stream.least());
    let next = AtomicU64::new(0);
    let gathered = Mutex::new((Tally::default(), Vec::new()));
    thread::scope(|scope| {
        for _ in 0..threads {
            scope.spawn(|| {
                let mut compare = Compare::default();
                let mut failures = Vec::new();
                while failures.len() < FAILURES {
                    let unit = next.fetch_add(1, Ordering::Relaxed);
                    if unit >= units {
                        break;
                    }
                    failures.extend(run_unit(&mut compare, stream, unit));
                }
                if failures.len() >= FAILURES {
                    next.store(units, Ordering::Relaxed);
                }
                let mut gathered = gathered.lock().expect("no thread panics");
                gathered.0.add(&compare.tally);
                gathered.1.append(&mut failures);
            });
        }
    });
    let (tally, mut failures) = gathered.into_inner().expect("no thread panics");
    failures.sort_by_key(|failure| (failure.unit, failure.place));
    (tally, failures)
}

/// Compares the books of one unit.
pub fn run_unit(compare: &mut Compare, stream: Stream, unit: u64) -> Vec<Failure> {
    let mut rng = stream.rng(unit);
    let books = stream.unit(unit, &mut rng);
    let mut failures = Vec::new();
    for (place, book) in books.into_iter().enumerate() {
        if let Err(fault) = compare.book(&book.bytes, &mut rng) {
            let (label, bytes) = (book.label, book.bytes);
            failures.push(Failure { stream, unit, place, label, bytes, fault });
        }
    }
    failures
}

#[cfg(test)]
mod tests {
    use super::*;
    use crate::compare::Tamper;
    use crate::lending::Buffer;
    use std::env;

    /// What is expected is wrong: the unit fails, again in the same way, and its book is kept.
    #[test]
    fn a_failure_repeats_and_is_kept() {
        let failed = || {
            let mut compare = Compare::default();
            compare.tamper = Some(Tamper::Cell(Buffer::Words, 0, 3));
            run_unit(&mut compare, Stream::WellFormed, 77).pop().expect("a failure")
        };
        let (one, other) = (failed(), failed());
        assert_eq!(one.fault, other.fault);
        let folder = env::temp_dir().join(format!("differential-{}", std::process::id()));
        let path = one.keep(&folder).expect("a file");
        assert_eq!(fs::read(&path).expect("the book"), other.bytes);
        fs::remove_dir_all(folder).expect("nothing else in it");
    }
}
