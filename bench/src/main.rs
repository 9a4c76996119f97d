//! Times the check in libhost.a beside the second program, in one run on the same books with the
//! same buffers, and prints the memory of a check; then the search alone, in libsolve.a, over
//! clauses that no book made. A ratio is our time over the second program's.

mod alone;
mod books;
mod clauses;
mod clock;
mod memory;
mod phases;
mod raw;
mod searches;
mod stack;
mod tables;
mod timing;

use std::env;
use std::process::ExitCode;
use std::time::Instant;

const WHAT: &str = "\
Each time is that of whole calls, rulebook_check_into beside the second program's check, over the
same bytes with buffers of the stated sizes: processor time of the thread, the least and the median
of 5 to 41 samples taken in turn (3 where a sample is long). A ratio is our time over the second
program's, by least and by median.
  reading    the book with its last node of kind 8: refused with 14 at that node
  building   the call with budget 0, without reading
  searching  the call with the book's budget, without the call with budget 0
A part under 2% of the call that it is taken from is noise and shown as -. Of several books the
time is that of all of them.
";

/// The check: its parts by book, and its memory.
fn check() -> Result<(), String> {
    let cases = books::cases()?;
    println!("{WHAT}");
    let measured = cases.iter().map(phases::measure).collect::<Result<Vec<_>, _>>()?;
    tables::books(&measured);
    tables::part("reading", &measured, |one| one.reading);
    tables::part("building", &measured, |one| one.building);
    tables::part("searching", &measured, |one| one.searching);
    tables::nodes(&measured);
    tables::part("whole call", &measured, |one| one.whole);
    memory::print(&cases);
    Ok(())
}

fn main() -> ExitCode {
    let start = Instant::now();
    let words: Vec<String> = env::args().skip(1).collect();
    let done = match words.iter().map(String::as_str).collect::<Vec<_>>()[..] {
        [] => check().and_then(|()| alone::print()),
        ["search"] => alone::print(),
        _ => Err("usage: bench [search]".into()),
    };
    match done {
        Ok(()) => {
            println!("\nmeasured in {:.0?}", start.elapsed());
            ExitCode::SUCCESS
        }
        Err(error) => {
            eprintln!("{error}");
            ExitCode::FAILURE
        }
    }
}
