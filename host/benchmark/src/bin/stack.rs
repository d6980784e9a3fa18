//! Prints how much stack each call of the proved engine needs, and the program: the tables of README and
//! of the C header.
//!
//! `stack --check` fails where a call needs more than README's table says.

use std::process::ExitCode;

use benchmark::stack::{measured, table};

fn main() -> ExitCode {
    let words: Vec<String> = std::env::args().skip(1).collect();
    let found = measured();
    match words.iter().map(String::as_str).collect::<Vec<_>>()[..] {
        [] => {
            println!("{}\n\n{}", found.for_readme(), found.for_header());
            ExitCode::SUCCESS
        }
        ["--check"] => {
            let stated = table::in_readme(&program::root());
            let beyond: Vec<_> = found.beyond(&stated).collect();
            for (cell, needed, said) in &beyond {
                let (row, column) = cell.names();
                let said = said.map_or("nothing".to_owned(), |bytes| format!("{bytes} bytes"));
                println!("stack: {row}, {column}: {needed} bytes, README says {said}");
            }
            println!(
                "stack: {} figures, {} beyond README's",
                found.len(),
                beyond.len()
            );
            if beyond.is_empty() {
                ExitCode::SUCCESS
            } else {
                ExitCode::FAILURE
            }
        }
        _ => {
            eprintln!("usage: stack [--check]");
            ExitCode::from(64)
        }
    }
}
