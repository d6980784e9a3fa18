//! Links the static library of the proved crates, which `tools/library` writes, and fails where it is missing or older
//! than what it is made from.

use std::collections::{BTreeMap, BTreeSet};
use std::env;
use std::fs;
use std::path::{Path, PathBuf};
use std::time::SystemTime;

/// The library, and the crate whose functions it has.
const LIBRARY: &str = "gondwize";
const CRATE: &str = "gondwize_c";

/// The folders of a crate that are proved and compiled.
const PARTS: [&str; 3] = ["src", "specs", "proofs"];

/// The crates of the repository that one is made from, itself among them, by `crates.txt`.
fn crates_of(name: &str, list: &str) -> BTreeSet<String> {
    let line = |line: &str| {
        let (name, needs) = line.split('#').next()?.split_once(':')?;
        // A static library has that word behind its name.
        let name = name.split_whitespace().next()?;
        let needs = needs.split_whitespace().map(str::to_owned);
        Some((name.to_owned(), needs.collect()))
    };
    let needs: BTreeMap<String, Vec<String>> = list.lines().filter_map(line).collect();
    let (mut reached, mut next) = (BTreeSet::new(), vec![name.to_owned()]);
    while let Some(name) = next.pop() {
        // The toolchain's own libraries have no line.
        if let Some(needed) = needs.get(&name) {
            if reached.insert(name) {
                next.extend(needed.iter().cloned());
            }
        }
    }
    reached
}

/// When a file or folder was last changed.
fn changed(path: &Path) -> SystemTime {
    let time = fs::metadata(path).and_then(|data| data.modified());
    time.unwrap_or_else(|error| panic!("{}: {error}", path.display()))
}

/// All files and folders under this one, itself among them.
fn everything_in(path: PathBuf) -> Vec<PathBuf> {
    let inside = fs::read_dir(&path).into_iter().flatten();
    let mut all: Vec<PathBuf> = inside
        .flat_map(|entry| everything_in(entry.expect("a folder that can be read").path()))
        .collect();
    all.push(path);
    all
}

fn main() {
    // As it is at run time: a copied checkout may bring a build script that was compiled elsewhere.
    let package = env::var_os("CARGO_MANIFEST_DIR").expect("the package's folder");
    let root = Path::new(&package).join("../..");
    let list = root.join("crates.txt");
    let folder = root.join("target/staticlib");
    let library = folder.join(format!("lib{LIBRARY}.a"));
    let remedy = "run `tools/library` in the repository's root";
    assert!(
        library.exists(),
        "{} is missing: {remedy} first",
        library.display()
    );

    let names = crates_of(CRATE, &fs::read_to_string(&list).expect("crates.txt"));
    assert!(names.contains(CRATE), "crates.txt has no line for {CRATE}");
    let crates = names.iter().map(|name| root.join("crates").join(name));
    let crates: Vec<PathBuf> = crates.collect();
    if let Some(path) = crates.iter().find(|path| !path.is_dir()) {
        panic!("{} is missing, and crates.txt lists it", path.display());
    }
    let parts = crates
        .iter()
        .flat_map(|path| PARTS.map(|part| path.join(part)));
    let parts: Vec<PathBuf> = parts.filter(|part| part.exists()).collect();
    let built = changed(&library);
    let newer = parts
        .iter()
        .cloned()
        .flat_map(everything_in)
        .chain([list.clone()])
        .find(|path| changed(path) > built);
    if let Some(path) = newer {
        panic!(
            "{} is older than {}: {remedy} again",
            library.display(),
            path.display()
        );
    }

    for path in parts.iter().chain([&list, &library]) {
        println!("cargo::rerun-if-changed={}", path.display());
    }
    println!("cargo::rustc-link-search=native={}", folder.display());
    println!("cargo::rustc-link-lib=static={LIBRARY}");
}
