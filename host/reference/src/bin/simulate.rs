//! The program of document 01 by the reference: a bath file on standard input, its report on
//! standard output. With the argument `literal` the sums go over all nodes.

use std::io::{self, Read, Write};

use reference::report::program_by;
use reference::Sums;

fn main() -> io::Result<()> {
    let sums = match std::env::args().nth(1).as_deref() {
        Some("literal") => Sums::Literal,
        _ => Sums::Nearby,
    };
    let mut input = Vec::new();
    io::stdin().lock().read_to_end(&mut input)?;
    io::stdout()
        .lock()
        .write_all(program_by(sums, &input).as_bytes())
}
