//! Tables in C, compiled by gcc: as objects, in archives and in programs, and files that are damaged.

use std::fs;
use std::ops::RangeInclusive;
use std::path::Path;
use std::process::Command;

use program::{ended, Room};
use read_only::rule::broken;
use read_only::weights::row;
use read_only::{look, Found};

/// The offsets of 64 rows and of 33.
const WHOLE: RangeInclusive<i64> = -32..=31;
const HALF: RangeInclusive<i64> = 0..=32;

/// The types that a table may have.
const TYPES: [&str; 3] = ["uint16_t", "uint32_t", "uint64_t"];

/// A table of rows in C.
fn table(name: &str, of: &str, offsets: RangeInclusive<i64>) -> String {
    let rows: Vec<String> = offsets
        .map(|q| {
            let [lower, nearest, upper] = row(q);
            format!("{{{lower}, {nearest}, {upper}}}")
        })
        .collect();
    let count = rows.len();
    let rows = rows.join(", ");
    format!("#include <stdint.h>\n{of} {name}[{count}][3] = {{{rows}}};\n")
}

/// Compiles a source to an object of the same name.
fn compile(room: &Room, name: &str, source: &str) {
    let file = format!("{name}.c");
    room.write(&file, source);
    room.command("gcc", &["-O2", "-c", &file, "-o", &format!("{name}.o")]);
}

fn found(room: &Room, name: &str) -> Found {
    look(&room.path(name)).unwrap_or_else(|why| panic!("{why}"))
}

/// A file that passes.
fn passes(room: &Room, name: &str) {
    let found = found(room, name);
    assert!(broken(&found).is_empty(), "{name}: {found:?}");
    assert!(found.kept >= 90, "{name}: {found:?}");
}

/// A file that breaks the rule in one way: words of it.
fn fails(room: &Room, name: &str, words: &str) {
    let found = found(room, name);
    let [why] = &broken(&found)[..] else {
        panic!("{name}: {found:?}");
    };
    assert!(why.to_string().contains(words), "{name}: {why}");
}

const MORE: &str = "of offsets -32 to -1";
const TWO: &str = "two constant tables";
const BLIND: &str = "not known";

#[test]
fn objects() {
    let room = Room::new("objects");
    for of in TYPES {
        compile(&room, "half", &table("half", &format!("const {of}"), HALF));
        passes(&room, "half.o");
        compile(
            &room,
            "whole",
            &table("whole", &format!("const {of}"), WHOLE),
        );
        fails(&room, "whole.o", MORE);
        // Writable data.
        compile(&room, "half", &table("half", of, HALF));
        passes(&room, "half.o");
        compile(&room, "whole", &table("whole", of, WHOLE));
        fails(&room, "whole.o", MORE);
        let two = table("one", "const uint16_t", HALF) + &table("other", of, HALF);
        compile(&room, "two", &two);
        fails(&room, "two.o", TWO);
    }
    compile(&room, "none", "int none(void) { return 7; }\n");
    fails(&room, "none.o", BLIND);
}

/// The numbers of the rows, row by row and column by column.
fn orders(offsets: RangeInclusive<i64>) -> [Vec<u64>; 2] {
    let column = |k: usize| offsets.clone().map(move |q| row(q)[k]);
    [
        offsets.clone().flat_map(row).collect(),
        (0..3).flat_map(column).collect(),
    ]
}

/// A function in C that stores every number by an instruction of its own.
fn stores(name: &str, of: &str, numbers: &[u64]) -> String {
    let stored = |(k, number)| format!("to[{k}] = {number};");
    let stores: String = numbers.iter().enumerate().map(stored).collect();
    format!("#include <stdint.h>\nvoid {name}(volatile {of} *to) {{ {stores} }}\n")
}

#[test]
fn operands() {
    let room = Room::new("operands");
    for of in TYPES {
        let kept = table("half", "const uint16_t", HALF);
        for (half, whole) in orders(HALF).iter().zip(orders(WHOLE)) {
            compile(&room, "half", &stores("half", of, half));
            passes(&room, "half.o");
            compile(&room, "whole", &stores("whole", of, &whole));
            fails(&room, "whole.o", MORE);
            compile(&room, "two", &(kept.clone() + &stores("two", of, half)));
            fails(&room, "two.o", TWO);
        }
        for mirrored in orders(-32..=-1) {
            let both = kept.clone() + &stores("mirrored", of, &mirrored);
            compile(&room, "mirrored", &both);
            fails(&room, "mirrored.o", MORE);
        }
    }
}

/// The bytes of read-only data and of code, and where the table stands.
#[test]
fn bytes_and_sections() {
    let room = Room::new("bytes");
    let words = "-O2 -c -fno-asynchronous-unwind-tables -fcf-protection=none";
    let mut words: Vec<&str> = words.split(' ').collect();
    words.extend(["table.c", "-o", "table.o"]);
    for (of, read_only) in [
        ("const uint16_t", 198),
        ("const uint64_t", 792),
        ("uint16_t", 0),
    ] {
        let code = "int seven(void) { return 7; }\nint zeros[99];\n";
        room.write("table.c", table("table", of, HALF) + code);
        room.command("gcc", &words);
        let found = found(&room, "table.o");
        assert_eq!(found.read_only, read_only, "{of}: {found:?}");
        // mov $7,%eax and ret.
        assert_eq!(found.code, 6, "{of}: {found:?}");
        let section = if read_only > 0 { ".rodata" } else { ".data" };
        let [(name, count)] = &found.tables[..] else {
            panic!("{of}: {found:?}");
        };
        assert_eq!(name, section, "{of}");
        assert!(*count >= 99, "{of}: {count}");
    }
}

/// Every member is looked at, by names of any length, and they count as one.
#[test]
fn archives() {
    let room = Room::new("archives");
    let long = "a_member_with_a_long_name";
    compile(&room, "none", "int none(void) { return 7; }\n");
    for of in TYPES {
        let of = format!("const {of}");
        compile(&room, "half", &table("half", &of, HALF));
        compile(&room, long, &table("another", &of, HALF));
        compile(&room, "whole", &table("whole", &of, WHOLE));
        let long = format!("{long}.o");
        let archive = |members: &[&str]| {
            let _ = fs::remove_file(room.path("all.a"));
            room.command("ar", &[&["rcs", "all.a"], members].concat());
        };
        archive(&["none.o", "half.o"]);
        passes(&room, "all.a");
        archive(&[&long, "none.o"]);
        passes(&room, "all.a");
        let found = found(&room, "all.a");
        assert_eq!(found.tables[0].0, format!("{long}, .rodata"));
        archive(&["none.o", "whole.o"]);
        fails(&room, "all.a", MORE);
        archive(&["half.o", &long]);
        fails(&room, "all.a", TWO);
        archive(&["none.o"]);
        fails(&room, "all.a", BLIND);
    }
}

#[test]
fn programs() {
    let room = Room::new("programs");
    let main = "int main(int count, char **words) { return words[0][0] + table[count][1] & 1; }\n";
    for of in TYPES {
        for of in [format!("const {of}"), of.to_owned()] {
            let link = |offsets, words: &[&str]| {
                room.write("main.c", table("table", &of, offsets) + main);
                room.command("gcc", &[&["-O2", "main.c", "-o", "main"], words].concat());
            };
            link(HALF, &[]);
            passes(&room, "main");
            room.command("strip", &["main"]);
            passes(&room, "main");
            link(WHOLE, &[]);
            fails(&room, "main", MORE);
            room.command("strip", &["main"]);
            fails(&room, "main", MORE);
            link(HALF, &["-no-pie"]);
            passes(&room, "main");
        }
    }
}

/// What the command prints and how it ends.
#[test]
fn the_command() {
    let room = Room::new("command");
    compile(&room, "half", &table("half", "const uint16_t", HALF));
    compile(&room, "whole", &table("whole", "const uint16_t", WHOLE));
    let command = |files: &[&str]| {
        let mut command = Command::new(env!("CARGO_BIN_EXE_read_only"));
        ended(command.args(files).current_dir(room.path("")))
    };
    let good = command(&["half.o"]);
    assert_eq!((good.status, &good.said[..]), (Some(0), ""));
    assert!(
        good.wrote.starts_with("half.o: ") && good.wrote.lines().count() == 1,
        "{good:?}"
    );
    let words = "weights of offsets 0 to 32: 99 of 99 numbers";
    assert!(good.wrote.contains(words), "{good:?}");
    for order in [["half.o", "whole.o"], ["whole.o", "half.o"]] {
        let bad = command(&order);
        assert_eq!(bad.status, Some(1), "{bad:?}");
        assert!(bad.wrote.contains(good.wrote.as_str()), "{bad:?}");
        assert!(
            bad.wrote.contains("whole.o: .rodata: 194 numbers"),
            "{bad:?}"
        );
    }
    let missing = command(&["half.o", "missing.o"]);
    assert_eq!(missing.status, Some(1));
    assert!(
        missing.wrote.contains("missing.o: it could not be read: "),
        "{missing:?}"
    );
    assert_eq!(command(&[]).status, Some(64));
}

/// A file that is an error: words of it.
fn is_error(path: &Path, words: &str) {
    match look(path) {
        Err(why) => assert!(why.contains(words), "{why}"),
        Ok(found) => panic!("{words}: {found:?}"),
    }
}

#[test]
fn files_of_another_kind() {
    let room = Room::new("kinds");
    is_error(Path::new("/"), "could not be read");
    let file = |contents: &[u8], words: &str| is_error(&room.write("file", contents), words);
    file(b"", "neither");
    file(b"text\n", "neither");
    file(b"!<arch>\n", "nothing in it is loaded");
    file(b"!<arch>\ntext\n", "header is cut short");
    file(format!("!<arch>\n{:60}", "text").as_bytes(), "none of ar's");
    file(b"\x7fELF", "header is cut short");
    compile(&room, "half", &table("half", "const uint16_t", HALF));
    room.write("text", "text\n");
    room.command("ar", &["rcs", "text.a", "half.o", "text"]);
    is_error(&room.path("text.a"), "its member text: neither");
    room.command("ar", &["rcsT", "thin.a", "half.o"]);
    is_error(&room.path("thin.a"), "neither");
    room.command("ar", &["rcs", "inner.a", "half.o"]);
    room.command("ar", &["rcs", "outer.a", "inner.a"]);
    is_error(&room.path("outer.a"), "its member inner.a: neither");
    room.command(
        "gcc",
        &[
            "-O2",
            "-m32",
            "-x",
            "assembler",
            "-c",
            "/dev/null",
            "-o",
            "narrow.o",
        ],
    );
    is_error(&room.path("narrow.o"), "not ELF of 64 bits");
}

/// Cut at any place, or with a header that leads out of the file.
#[test]
fn damaged_files() {
    let room = Room::new("damaged");
    compile(&room, "half", &table("half", "const uint16_t", HALF));
    let object = fs::read(room.path("half.o")).expect("an object");
    let path = room.path("damaged.o");
    let cut = |bytes: &[u8]| {
        for length in 0..bytes.len() {
            fs::write(&path, &bytes[..length]).expect("a file");
            assert!(look(&path).is_err(), "{length} of {} bytes", bytes.len());
        }
    };
    cut(&object);
    room.command("ar", &["rcs", "half.a", "half.o"]);
    let archive = fs::read(room.path("half.a")).expect("an archive");
    cut(&archive[..archive.len() - object.len() % 2]);

    let changed = |at: usize, to: &[u8], words: &str| {
        let mut bytes = object.clone();
        bytes[at..at + to.len()].copy_from_slice(to);
        fs::write(&path, bytes).expect("a file");
        is_error(&path, words);
    };
    changed(4, &[1], "not ELF of 64 bits");
    changed(5, &[2], "not ELF of 64 bits");
    changed(18, &[183], "not ELF of 64 bits for x86-64");
    changed(58, &[40], "section headers of 40 bytes");
    changed(60, &[0, 0], "0 section headers");
    changed(60, &[255, 255], "section headers are not all in the file");
    changed(62, &[255, 255], "no names of sections");
    let number = |at: usize| u64::from_le_bytes(object[at..at + 8].try_into().expect("8 bytes"));
    let headers = number(40) as usize;
    changed(
        40,
        &u64::MAX.to_le_bytes(),
        "section headers are not all in the file",
    );
    changed(
        40,
        &(headers as u64 + 1).to_le_bytes(),
        "section headers are not all in the file",
    );
    let count = (object.len() - headers) / 64;
    let mut loaded = 0;
    for index in 1..count {
        let header = headers + 64 * index;
        let size = number(header + 32);
        // A section without bytes, or of a type that has none in the file, may stand anywhere.
        if number(header + 8) & 2 == 0 || size == 0 || object[header + 4] == 8 {
            continue;
        }
        loaded += 1;
        let words = format!("its section {index} is not all in the file");
        let past = object.len() as u64 - size + 1;
        for offset in [past, object.len() as u64, u64::MAX, 1 << 63] {
            changed(header + 24, &offset.to_le_bytes(), &words);
        }
        for size in [object.len() as u64, u64::MAX, 1 << 63] {
            changed(header + 32, &size.to_le_bytes(), &words);
        }
        changed(
            header,
            &[255; 4],
            &format!("its section {index} has no name"),
        );
        changed(
            header + 9,
            &[8],
            &format!("its section {index} is compressed"),
        );
    }
    assert!(loaded > 0);
}
