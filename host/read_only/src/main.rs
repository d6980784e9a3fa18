//! Fails where a table of weights stands in a file otherwise than as 33 rows, once.
//!
//! `read_only FILE..`: object files, archives of them, or programs.

use std::path::Path;
use std::process::ExitCode;

use read_only::rule::broken;

fn main() -> ExitCode {
    let files: Vec<String> = std::env::args().skip(1).collect();
    if files.is_empty() {
        eprintln!("usage: read_only FILE..");
        return ExitCode::from(64);
    }
    let mut good = true;
    for file in &files {
        match read_only::look(Path::new(file)) {
            Err(why) => {
                println!("{why}");
                good = false;
            }
            Ok(found) => {
                let broken = broken(&found);
                for why in &broken {
                    println!("{file}: {why}");
                }
                println!("{file}: {found}");
                if !broken.is_empty() {
                    for (section, count) in &found.tables {
                        println!("{file}: {section}: {count} numbers");
                    }
                    good = false;
                }
            }
        }
    }
    if good {
        ExitCode::SUCCESS
    } else {
        ExitCode::FAILURE
    }
}
