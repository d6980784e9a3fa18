//! Objects that the check must pass or refuse, assembled by gcc.

use std::path::{Path, PathBuf};

use probes::{look, Found};
use program::Room;

/// The path of an object's source.
fn source(name: &str) -> String {
    format!("{}/tests/objects/{name}.s", env!("CARGO_MANIFEST_DIR"))
}

/// Assembles one of the objects.
fn assemble(room: &Room, name: &str) -> PathBuf {
    let object = format!("{name}.o");
    let folder = format!("-Wa,-I{}/tests/objects", env!("CARGO_MANIFEST_DIR"));
    room.command("gcc", &["-c", &folder, &source(name), "-o", &object]);
    room.path(&object)
}

/// What is found in one of the objects.
fn found(name: &str) -> Found {
    let room = Room::new(name);
    look(&assemble(&room, name)).expect("an object that can be read")
}

/// An object with one broken place: in which function, and words of why.
fn refused(name: &str, function: &str, why: &str) {
    let found = found(name);
    let [broken] = &found.broken[..] else {
        panic!("{name}: {found:?}");
    };
    assert_eq!(broken.function, function, "{name}: {broken}");
    assert!(broken.why.contains(why), "{name}: {broken}");
    assert_eq!(found.at_entry, 0, "{name}");
}

#[test]
fn loops_at_entries_pass() {
    let expected = Found {
        functions: 3,
        at_entry: 3,
        broken: Vec::new(),
    };
    assert_eq!(found("at_entry"), expected);
}

/// An object of so many functions, without a probe loop that counts and without a broken place.
fn passes_without_loop(name: &str, functions: usize) {
    let expected = Found {
        functions,
        at_entry: 0,
        broken: Vec::new(),
    };
    assert_eq!(found(name), expected);
}

#[test]
fn no_loop_passes() {
    passes_without_loop("no_loop", 3);
}

#[test]
fn the_start_of_a_program_passes() {
    passes_without_loop("start", 1);
}

#[test]
fn what_is_like_the_start_is_refused() {
    for (name, function) in [("start_of_another", "other"), ("start_with_r11", "main")] {
        let found = found(name);
        assert!(!found.broken.is_empty(), "{name}: {found:?}");
        assert!(
            found.broken.iter().all(|place| place.function == function),
            "{name}: {found:?}"
        );
    }
}

#[test]
fn what_a_compiler_got_wrong_is_refused() {
    refused("fault", "fault", "`mov %rsi,%r10` stands at 0");
}

/// The object is wrong indeed: its source says 9.
#[test]
fn what_a_compiler_got_wrong_is_wrong() {
    let room = Room::new("wrong");
    let main = "#include <stdio.h>\nlong fault(long, long, long, long, long, long);\n\
                int main(void) { printf(\"%ld %ld\", fault(2, 3, 2, 0, 11, 13), fault(2, 3, 5, 7, 11, 13)); }\n";
    room.write("main.c", main);
    room.command("gcc", &["main.c", &source("fault"), "-o", "main"]);
    let told = room.command("./main", &[]);
    let (early, late) = told.split_once(' ').expect("two numbers");
    assert_eq!(early, "9", "11 & 13, before the frame is made");
    assert_ne!(
        late, "9",
        "1 ^ 5 ^ 7 ^ 11 ^ 13 ^ (2 & 3) ^ (5 | 7) ^ (11 & 13)"
    );
}

#[test]
fn loops_elsewhere_are_refused() {
    refused("later", "later", "`test %rdi,%rdi` stands at 0");
    refused(
        "after_a_move",
        "after_a_move",
        "`mov %rdi,%r11` stands at 1",
    );
    refused(
        "another_register",
        "another_register",
        "`mov %rsp,%rdi` stands at 0",
    );
    refused("led_to", "led_to", "leads to it");
    refused("label", "function", "`mov %rdi,%r11` stands at 0");
    refused("two_blocks", "two_blocks", "the stack pointer is compared");
}

/// Every member of an archive is looked at, and a program as well.
#[test]
fn archives_and_programs() {
    let room = Room::new("archive");
    for name in ["at_entry", "fault", "later"] {
        assemble(&room, name);
    }
    room.command("ar", &["rcs", "all.a", "at_entry.o", "fault.o", "later.o"]);
    let in_archive = look(&room.path("all.a")).expect("an archive");
    let names = |found: &Found| -> Vec<String> {
        found
            .broken
            .iter()
            .map(|broken| broken.function.clone())
            .collect()
    };
    assert_eq!((in_archive.functions, in_archive.at_entry), (5, 3));
    assert_eq!(names(&in_archive), ["fault", "later"]);

    room.write("main.c", "int main(void) { return 0; }\n");
    room.command("gcc", &["main.c", "at_entry.o", "fault.o", "-o", "main"]);
    let in_program = look(&room.path("main")).expect("a program");
    assert_eq!(in_program.at_entry, 3);
    assert_eq!(names(&in_program), ["fault"]);
    room.command("strip", &["main"]);
    let stripped = look(&room.path("main"));
    assert!(
        !stripped.is_ok_and(|found| found.broken.is_empty()),
        "a program without symbols"
    );
}

#[test]
fn what_is_no_code_is_an_error() {
    let room = Room::new("no-code");
    let nothing = room.path("nothing");
    assert!(look(&nothing).is_err(), "a file that is missing");
    room.write("nothing", "text\n");
    assert!(look(&nothing).is_err(), "a text");
    room.command("ar", &["rcs", "empty.a"]);
    assert!(look(&room.path("empty.a")).is_err(), "an empty archive");
    assert!(look(Path::new("/")).is_err(), "a folder");
}
