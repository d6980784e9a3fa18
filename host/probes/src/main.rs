//! Fails where a stack probe loop stands anywhere but at a function's entry.
//!
//! `probes FILE..`: object files, archives of them, or programs.

use std::path::Path;
use std::process::ExitCode;

fn main() -> ExitCode {
    let files: Vec<String> = std::env::args().skip(1).collect();
    if files.is_empty() {
        eprintln!("usage: probes FILE..");
        return ExitCode::from(64);
    }
    let mut good = true;
    for file in &files {
        match probes::look(Path::new(file)) {
            Err(why) => {
                println!("{why}");
                good = false;
            }
            Ok(found) => {
                for broken in &found.broken {
                    println!("{file}: {broken}");
                }
                println!(
                    "{file}: {} functions, {} stack probe loops at entries, {} elsewhere",
                    found.functions,
                    found.at_entry,
                    found.broken.len()
                );
                good &= found.broken.is_empty();
            }
        }
    }
    if good {
        ExitCode::SUCCESS
    } else {
        ExitCode::FAILURE
    }
}
