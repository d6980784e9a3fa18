//! `vectors [BEGINNING ..]` prints the cases whose names begin so, or all; the format is in the
//! library's documentation.

use std::io::{self, BufWriter, Write};

fn main() -> io::Result<()> {
    let beginnings: Vec<String> = std::env::args().skip(1).collect();
    let wanted = |name: &str| {
        beginnings.is_empty()
            || beginnings
                .iter()
                .any(|beginning| name.starts_with(beginning))
    };
    let mut output = BufWriter::new(io::stdout().lock());
    for case in vectors::cases().iter().filter(|case| wanted(&case.name)) {
        writeln!(output, "{case}")?;
    }
    output.flush()
}
