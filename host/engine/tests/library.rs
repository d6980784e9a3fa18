//! The build of the Rust wrapper takes no static library that is missing or older than what it is made from.

use std::fs::{self, File};
use std::path::PathBuf;
use std::process::Command;
use std::time::SystemTime;

use program::{ended, root, Ended, Room};

/// Builds the wrapper in a copy of what it is made from.
fn build(room: &Room) -> Ended {
    let mut cargo = Command::new(env!("CARGO"));
    cargo.args(["check", "--offline", "--quiet"]);
    cargo.env("CARGO_TARGET_DIR", room.path("cargo"));
    ended(cargo.current_dir(room.path("host/engine")))
}

/// What the wrapper is made from, but for the crates, and its `Cargo.toml`, which is one of a workspace.
const PARTS: [&str; 4] = [
    "crates.txt",
    "target/staticlib",
    "host/engine/src",
    "host/engine/build.rs",
];

/// A copy of what the wrapper is made from.
fn repository(name: &str) -> Room {
    let room = Room::new(name);
    PARTS.into_iter().for_each(|part| room.copy(part));
    // Beside these a crate's folder has what rt keeps, which is large and not read.
    for entry in fs::read_dir(root().join("crates")).expect("a folder") {
        let name = entry.expect("a crate").file_name();
        let name = name.to_str().expect("a name");
        for part in ["src", "specs", "proofs"] {
            let part = format!("crates/{name}/{part}");
            if root().join(&part).exists() {
                room.copy(&part);
            }
        }
    }
    let package = "name = \"engine\"\nversion = \"0.1.0\"\nedition = \"2021\"\n";
    room.write(
        "host/engine/Cargo.toml",
        format!("[workspace]\n[package]\n{package}"),
    );
    room
}

fn touch(path: PathBuf, time: SystemTime) {
    let file = File::options().append(true).open(path).expect("a file");
    file.set_modified(time).expect("a time that can be set");
}

fn builds(room: &Room) {
    let told = build(room);
    assert_eq!(told.status, Some(0), "{}", told.said);
}

fn fails(room: &Room, words: &str) {
    let told = build(room);
    assert!(
        told.status != Some(0) && told.said.contains(words),
        "{}",
        told.said
    );
}

#[test]
fn a_stale_library_fails_the_build() {
    let room = repository("library");
    builds(&room);
    let library = || room.path("target/staticlib/libgondwize.a");
    for source in ["crates/spline/src/lib.rt", "crates.txt"] {
        let now = SystemTime::now();
        touch(room.path(source), now);
        fails(&room, "is older than");
        touch(library(), now);
        builds(&room);
    }

    fs::rename(room.path("crates/spline"), room.path("aside")).expect("a folder");
    fails(&room, "crates/spline is missing, and crates.txt lists it");
    fs::rename(room.path("aside"), room.path("crates/spline")).expect("a folder");
    builds(&room);

    fs::remove_file(library()).expect("a library");
    fails(&room, "is missing: run `tools/library");
}

/// A checkout that is copied with its builds looks at its own library, and not at the first one's.
#[test]
fn a_copied_checkout() {
    let first = repository("first");
    builds(&first);
    let second = Room::new("second");
    for part in ["crates.txt", "crates", "target", "host", "cargo"] {
        second.copy_from(&first.path(part), part);
    }
    touch(second.path("crates.txt"), SystemTime::now());
    let list = second.path("host/engine/../../crates.txt");
    fails(&second, &format!("is older than {}", list.display()));
    builds(&first);
}
