//! `samples FOLDER` writes every sample as NAME.bath with the program's text as NAME.txt.
//! `samples --check FOLDER` compares instead, and fails where one is missing or differs.

use std::fs;
use std::io;
use std::path::Path;
use std::process::ExitCode;

use samples::{samples, Sample};

/// The two files of a sample: name and contents.
fn files(sample: &Sample) -> [(String, Vec<u8>); 2] {
    let output = sample.expected_output().into_bytes();
    [
        (format!("{}.bath", sample.name), sample.file.clone()),
        (format!("{}.txt", sample.name), output),
    ]
}

fn write(folder: &Path) -> io::Result<()> {
    fs::create_dir_all(folder)?;
    for (name, contents) in samples().iter().flat_map(files) {
        fs::write(folder.join(name), contents)?;
    }
    Ok(())
}

/// Names of the files that are missing or differ.
fn differing(folder: &Path) -> Vec<String> {
    let all = samples();
    let differs = |(name, contents): (String, Vec<u8>)| {
        let same = fs::read(folder.join(&name)).is_ok_and(|held| held == contents);
        (!same).then_some(name)
    };
    all.iter().flat_map(files).filter_map(differs).collect()
}

fn main() -> ExitCode {
    let arguments: Vec<String> = std::env::args().skip(1).collect();
    match arguments.iter().map(String::as_str).collect::<Vec<_>>()[..] {
        ["--check", folder] => {
            let names = differing(Path::new(folder));
            names.iter().for_each(|name| println!("{name} differs"));
            ExitCode::from(u8::from(!names.is_empty()))
        }
        [folder] if !folder.starts_with('-') => match write(Path::new(folder)) {
            Ok(()) => ExitCode::SUCCESS,
            Err(error) => {
                eprintln!("{folder}: {error}");
                ExitCode::FAILURE
            }
        },
        _ => {
            eprintln!("usage: samples [--check] FOLDER");
            ExitCode::FAILURE
        }
    }
}
