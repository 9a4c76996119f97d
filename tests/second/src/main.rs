//! The program of 01, "Books to try": a book on standard input, the answer on standard output.

use std::io::{self, Read, Write};

fn main() -> io::Result<()> {
    let mut input = Vec::with_capacity(second::program::INPUT);
    io::stdin().lock().take(second::program::INPUT as u64).read_to_end(&mut input)?;
    let mut out = io::stdout().lock();
    out.write_all(second::program::output(&input).as_bytes())?;
    out.flush()
}
