//! `run` takes the program that belongs to the sources as they are, and proves only where there is something to prove.
//! Most tests have a repository of three small crates and a stand-in for rt.

use std::fs;
use std::io::Read;
use std::path::PathBuf;
use std::process::{Command, Stdio};
use std::thread;
use std::time::Duration;

use program::{ended, root, Ended, Room};

const PROVING: &str =
    "gondwize: proving and building what has changed of 2 crates (all of them: some minutes)\n";
const PART: &str = "gondwize: crate 1 of 2: part proved\n";
const PROGRAM: &str = "gondwize: crate 2 of 2: simulate proved\n";

/// Longer than the grain of a file's time.
const TICK: Duration = Duration::from_millis(50);

/// The tools that `run` calls, and those of the stand-in; rt is not among them.
const TOOLS: [&str; 20] = [
    "bash",
    "env",
    "sh",
    "cat",
    "cp",
    "mv",
    "rm",
    "mkdir",
    "touch",
    "chmod",
    "head",
    "sleep",
    "find",
    "sort",
    "xargs",
    "awk",
    "sed",
    "readlink",
    "sha256sum",
    "flock",
];

/// A small repository, with a folder of tools that has no rt.
struct Small {
    room: Room,
}

impl Small {
    fn new(name: &str) -> Self {
        let room = Room::new(name);
        room.copy("run");
        room.write(
            "crates.txt",
            "# NAME: DEP DEP ..\nsimulate: part io # the program\npart:\nother: part\n",
        );
        room.write("crates/part/src/lib.rt", "first part\n");
        room.write("crates/simulate/src/main.rt", "first program\n");
        room.write("crates/other/notes", "not a source of the program\n");
        room.write("tools/none", "");
        for tool in TOOLS {
            let found = ended(Command::new("bash").args(["-c", "command -v \"$1\"", "bash", tool]));
            let link =
                std::os::unix::fs::symlink(found.wrote.trim_end(), room.path("tools").join(tool));
            assert!(found.status == Some(0) && link.is_ok(), "{tool} is missing");
        }
        let small = Small { room };
        let said = format!("{PROVING}{PART}{PROGRAM}");
        small.shows("first part\nfirst program\n", &said, 1);
        small.shows("first part\nfirst program\n", "", 1);
        small
    }

    /// `run` with or without the stand-in for rt.
    fn command(&self, with_rt: bool) -> Command {
        let mut command = Command::new(self.room.path("run"));
        let stand_in = root().join("host/program/stand_in");
        let tools = self.room.path("tools");
        let path = std::env::var("PATH").expect("a path");
        let path = if with_rt {
            format!("{}:{path}", stand_in.display())
        } else {
            tools.display().to_string()
        };
        command.env("PATH", path).stdin(Stdio::null());
        command
    }

    /// How often rt was called.
    fn calls(&self) -> usize {
        let calls = fs::read_to_string(self.room.path("calls"));
        calls.map_or(0, |text| text.lines().count())
    }

    /// `run` prints this and says that, and rt was called so often in all.
    fn shows(&self, wrote: &str, said: &str, calls: usize) {
        let told = ended(&mut self.command(true));
        assert_eq!((told, self.calls()), (Ended::with(0, wrote, said), calls));
    }

    fn path(&self, name: &str) -> PathBuf {
        self.room.path(name)
    }
}

#[test]
fn a_changed_source() {
    let small = Small::new("changed");
    small
        .room
        .write("crates/simulate/src/main.rt", "second program\n");
    small.shows(
        "first part\nsecond program\n",
        &format!("{PROVING}{PROGRAM}"),
        2,
    );
    small.room.write("crates/part/src/lib.rt", "second part\n");
    small.shows(
        "second part\nsecond program\n",
        &format!("{PROVING}{PART}{PROGRAM}"),
        3,
    );
    small.room.write("crates/part/src/more.rt", "third part\n");
    small.shows(
        "second part\nthird part\nsecond program\n",
        &format!("{PROVING}{PART}{PROGRAM}"),
        4,
    );
    fs::remove_file(small.path("crates/part/src/more.rt")).expect("a file");
    small.shows(
        "second part\nsecond program\n",
        &format!("{PROVING}{PART}{PROGRAM}"),
        5,
    );
    small.shows("second part\nsecond program\n", "", 5);
}

/// As an archive or a checkout with times of its own leaves it.
#[test]
fn a_changed_source_with_its_old_time() {
    let small = Small::new("old-time");
    let path = small.path("crates/part/src/lib.rt");
    let time = fs::metadata(&path)
        .and_then(|data| data.modified())
        .expect("a time");
    small.room.write("crates/part/src/lib.rt", "other part\n");
    let file = fs::File::options().write(true).open(&path).expect("a file");
    file.set_modified(time).expect("a time that can be set");
    small.shows(
        "other part\nfirst program\n",
        &format!("{PROVING}{PART}{PROGRAM}"),
        2,
    );
}

#[test]
fn nothing_that_matters_changed() {
    let small = Small::new("touched");
    small.room.write("crates/part/src/lib.rt", "first part\n");
    small.shows("first part\nfirst program\n", "", 1);
    small.room.write("crates/other/notes", "changed\n");
    small
        .room
        .write("crates/part/must-fail/wrong.edit", "an edit\n");
    small.shows("first part\nfirst program\n", "", 1);
}

#[test]
fn a_program_or_a_library_that_is_gone() {
    let small = Small::new("gone");
    fs::remove_file(small.path("target/bin/simulate")).expect("a program");
    small.shows(
        "first part\nfirst program\n",
        &format!("{PROVING}{PROGRAM}"),
        2,
    );
    small.room.write("target/bin/simulate", "not a program");
    small.shows(
        "first part\nfirst program\n",
        &format!("{PROVING}{PROGRAM}"),
        3,
    );
    fs::remove_file(small.path("crates/part/out/part")).expect("a library");
    small.shows("first part\nfirst program\n", "", 3);
    small
        .room
        .write("crates/simulate/src/main.rt", "second program\n");
    small.shows(
        "first part\nsecond program\n",
        &format!("{PROVING}{PART}{PROGRAM}"),
        4,
    );
    for made in ["target", "crates/part/out", "crates/simulate/out"] {
        fs::remove_dir_all(small.path(made)).expect("a folder");
    }
    small.shows(
        "first part\nsecond program\n",
        &format!("{PROVING}{PART}{PROGRAM}"),
        5,
    );
}

/// A folder of crates that takes the place of another, all of it older than the last look.
#[test]
fn another_folder_of_crates() {
    let small = Small::new("replaced");
    small
        .room
        .write("crates.new/part/src/lib.rt", "first part\n");
    small
        .room
        .write("crates.new/simulate/src/main.rt", "second program\n");
    thread::sleep(TICK);
    small.room.write("crates/part/src/lib.rt", "first part\n");
    small.shows("first part\nfirst program\n", "", 1);
    for (from, to) in [("crates", "crates.old"), ("crates.new", "crates")] {
        fs::rename(small.path(from), small.path(to)).expect("a folder that can be renamed");
    }
    small.shows(
        "first part\nsecond program\n",
        &format!("{PROVING}{PART}{PROGRAM}"),
        2,
    );
}

/// Nothing passes for unchanged that could not be looked at.
#[test]
fn sources_that_cannot_be_read() {
    let small = Small::new("unread");
    let fails = |change: &str| {
        let told = ended(&mut small.command(false));
        let end = "gondwize: the sources of the program could not be read\n";
        assert!(
            told.status == Some(3) && told.wrote.is_empty() && told.said.ends_with(end),
            "{change}: {told:?}"
        );
    };
    for gone in ["crates.txt", "crates/part", "tools/find", "tools/awk"] {
        fs::rename(small.path(gone), small.path("aside")).expect("something to move");
        fails(gone);
        fs::rename(small.path("aside"), small.path(gone)).expect("something to move");
    }
    small.room.write("crates.txt", "other: part\npart:\n");
    fails("no line for the program");
    assert_eq!(small.calls(), 1);
}

#[test]
fn a_proof_that_fails() {
    let small = Small::new("fails");
    small
        .room
        .write("crates/simulate/src/main.rt", "WRONG program\n");
    let rt = "crates/simulate/src: error: a goal is left\n\
              crate simulate: modules loaded=0 checked=1\n\
              logic=not-proved\n";
    let end = "gondwize: the program could not be proved and built: what rt said stands above\n";
    for calls in [2, 3] {
        let told = ended(&mut small.command(true));
        assert_eq!(told, Ended::with(3, "", &format!("{PROVING}{rt}{end}")));
        assert_eq!(small.calls(), calls);
    }
    small
        .room
        .write("crates/simulate/src/main.rt", "first program\n");
    small.shows("first part\nfirst program\n", "", 3);
}

#[test]
fn without_rt() {
    let small = Small::new("no-rt");
    let told = ended(&mut small.command(false));
    assert_eq!(told, Ended::with(0, "first part\nfirst program\n", ""));
    small
        .room
        .write("crates/simulate/src/main.rt", "second program\n");
    let said = "gondwize: the program has to be proved and built, and the Rattle toolchain is missing: no rt in PATH\n";
    let told = ended(&mut small.command(false));
    assert_eq!(told, Ended::with(3, "", said));
}

#[test]
fn calls_at_the_same_time() {
    let small = Small::new("together");
    small
        .room
        .write("crates/simulate/src/main.rt", "second program\n");
    let said: Vec<String> = thread::scope(|scope| {
        let call = || ended(small.command(true).env("SLOW", "1"));
        let calls: Vec<_> = (0..6).map(|_| scope.spawn(call)).collect();
        let ends = calls
            .into_iter()
            .map(|call| call.join().expect("a call that ends"));
        ends.map(|told| {
            assert_eq!(
                (told.status, &told.wrote[..]),
                (Some(0), "first part\nsecond program\n")
            );
            told.said
        })
        .collect()
    });
    assert_eq!(small.calls(), 2);
    let proved = format!("{PROVING}{PROGRAM}");
    assert_eq!(
        said.iter().filter(|text| **text == proved).count(),
        1,
        "{said:?}"
    );
    let waited = "gondwize: waiting for another call, which proves and builds\n";
    assert!(
        said.iter()
            .all(|text| [&proved, waited, ""].contains(&&text[..])),
        "{said:?}"
    );
}

/// A call that another one holds up says so after a second, and not before.
#[test]
fn a_call_that_waits() {
    let small = Small::new("waits");
    let waited = "gondwize: waiting for another call, which proves and builds\n";
    for (seconds, said) in [("0.2", ""), ("3", waited)] {
        let mut holder = Command::new("flock");
        holder
            .arg(small.path("target/run.lock"))
            .args(["sh", "-c", "echo held; exec sleep \"$1\"", "sh", seconds])
            .stdout(Stdio::piped());
        let mut holder = holder.spawn().expect("a command that starts");
        let mut held = [0; 5];
        let out = holder.stdout.as_mut().expect("a pipe");
        out.read_exact(&mut held).expect("its line");
        small.room.write("crates/part/src/lib.rt", "first part\n");
        small.shows("first part\nfirst program\n", said, 1);
        assert!(holder.wait().is_ok_and(|status| status.success()));
    }
}

/// A program of one line for rt itself, and what it writes.
fn small_program(room: &Room, line: &str) {
    let source = format!(
        "use std::io;\n\nfn main(rt: HostRuntime) -> io::Result<()> {{\n    println!(rt; \"{line}\")\n}}\n"
    );
    room.write("crates/simulate/src/main.rt", source);
    room.write("crates/simulate/stdout", format!("{line}\n"));
}

/// With rt itself, on two crates of its own language.
#[test]
fn by_rt_itself() {
    let room = Room::new("itself");
    room.copy("run");
    room.write("crates.txt", "simulate: part\npart:\n");
    room.write("crates/part/src/lib.rt", "// Nothing.\n");
    small_program(&room, "first");
    let mut run = Command::new(room.path("run"));
    run.stdin(Stdio::null());
    let mut shows = |wrote: &str, proved: &[&str]| {
        let told = ended(&mut run);
        assert_eq!(
            (told.status, &told.wrote[..]),
            (Some(0), wrote),
            "{}",
            told.said
        );
        let lines: Vec<&str> = told.said.lines().collect();
        assert_eq!(lines.len(), proved.len(), "{lines:?}");
        assert!(
            lines
                .iter()
                .zip(proved)
                .all(|(line, start)| line.starts_with(start)),
            "{lines:?}"
        );
    };
    let [part, program] = [
        "gondwize: crate 1 of 2: part proved",
        "gondwize: crate 2 of 2: simulate proved",
    ];
    let proving = PROVING.trim_end();
    shows("first\n", &[proving, part, program]);
    shows("first\n", &[]);
    fs::remove_file(room.path("target/bin/simulate")).expect("a program");
    shows("first\n", &[proving, program]);
    small_program(&room, "second");
    shows("second\n", &[proving, program]);

    room.write("crates/simulate/src/main.rt", "fn main() { nothing(); }\n");
    let told = ended(&mut run);
    assert_eq!((told.status, &told.wrote[..]), (Some(3), ""));
    assert!(
        told.said.contains("error[unknown-name]") && told.said.contains("nothing"),
        "{}",
        told.said
    );
}
