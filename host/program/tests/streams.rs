//! Input that cannot be read and a report that cannot be written: each is said, and nothing passes for a whole report.

use std::fs::{read_to_string, File, OpenOptions};
use std::io::{pipe, Read};
use std::os::fd::AsRawFd;
use std::os::unix::fs::OpenOptionsExt;

use program::{bash, ended, program, root, run, Ended, Room};

const UNREAD: &str = "input could not be read\n";
const UNWRITTEN: &str = "report could not be written in full\n";

/// O_NONBLOCK on Linux for x86-64 and Arm.
const NONBLOCK: i32 = 0o4000;

/// What the program says, and what `run` makes of it.
fn both_say(script: &str, said: &str) {
    let by_program = ended(&mut bash(script, &program()));
    assert_eq!(by_program, Ended::with(0, "", said), "{script}");
    let by_run = ended(&mut bash(script, &run()));
    let Ended {
        status,
        wrote,
        said: sentence,
    } = by_run;
    assert_eq!((status, &wrote[..]), (Some(1), ""), "{script}");
    let start = format!(
        "gondwize: the {}",
        said.trim_end().trim_end_matches(" in full")
    );
    assert!(
        sentence.starts_with(&start) && sentence.ends_with('\n'),
        "{script}: {sentence}"
    );
}

#[test]
fn a_full_device() {
    both_say(r#""$1" < examples/printed.bath > /dev/full"#, UNWRITTEN);
    both_say(r#""$1" < examples/full.bath > /dev/full"#, UNWRITTEN);
    both_say(r#""$1" < examples/refused.bath > /dev/full"#, UNWRITTEN);
}

#[test]
fn closed_or_not_to_be_written() {
    both_say(r#""$1" < examples/printed.bath >&-"#, UNWRITTEN);
    both_say(r#""$1" < examples/printed.bath 1< /dev/null"#, UNWRITTEN);
}

#[test]
fn closed_or_not_to_be_read() {
    both_say(r#""$1" <&-"#, UNREAD);
    both_say(r#""$1" < examples"#, UNREAD);
    both_say(r#""$1" 0> /dev/null"#, UNREAD);
}

#[test]
fn nothing_to_read_is_an_empty_file() {
    let script = r#""$1" < /dev/null"#;
    let by_program = ended(&mut bash(script, &program()));
    assert_eq!(
        by_program,
        Ended::with(0, "refused 1 at 0\n", "refused 1 at 0\n")
    );
    let by_run = ended(&mut bash(script, &run()));
    assert_eq!(
        (by_run.status, &by_run.wrote[..]),
        (Some(2), "refused 1 at 0\n")
    );
}

#[test]
fn closed_standard_error() {
    let run = run();
    let printed = read_to_string(root().join("examples/printed.txt")).expect("a sample");
    for (script, status, wrote) in [
        (r#""$1" examples/printed.bath 2>&-"#, 0, &printed[..]),
        (r#""$1" examples/printed.bath <&- 2>&-"#, 0, &printed),
        (r#""$1" examples/refused.bath 2>&-"#, 2, "refused 8 at 2\n"),
        (r#""$1" <&- 2>&-"#, 1, ""),
        (r#""$1" examples/printed.bath >&- 2>&-"#, 1, ""),
        (r#""$1" examples/printed.bath <&- >&- 2>&-"#, 1, ""),
        (r#""$1" a b 2>&-"#, 64, ""),
    ] {
        assert_eq!(
            ended(&mut bash(script, &run)),
            Ended::with(status, wrote, ""),
            "{script}"
        );
    }
}

/// A pipe that nobody reads takes a part of the report, and then no more without waiting.
#[test]
fn a_pipe_that_does_not_wait() {
    let report = read_to_string(root().join("examples/full.txt")).expect("a sample");
    for (command, status, said) in [
        (program(), 0, UNWRITTEN.to_owned()),
        (run(), 1, format!("gondwize: the {UNWRITTEN}")),
    ] {
        let (mut reader, writer) = pipe().expect("a pipe");
        let path = format!("/proc/self/fd/{}", writer.as_raw_fd());
        let mut options = OpenOptions::new();
        let impatient = options.write(true).custom_flags(NONBLOCK).open(path);
        let mut script = bash(r#""$1" < examples/full.bath"#, &command);
        let told = ended(script.stdout(impatient.expect("the pipe again")));
        assert_eq!(told, Ended::with(status, "", &said));
        drop((writer, script));
        let mut taken = String::new();
        reader.read_to_string(&mut taken).expect("text");
        assert!(!taken.is_empty() && taken.len() < report.len());
        assert!(report.starts_with(&taken));
    }
}

/// A pipe that is read late: every part arrives, once and in order.
#[test]
fn a_report_in_parts() {
    let report = read_to_string(root().join("examples/full.txt")).expect("a sample");
    let script = r#"{ "$1" < examples/full.bath; echo "status $?" >&2; } | { sleep 0.1; cat; }"#;
    let told = ended(&mut bash(script, &run()));
    assert_eq!(told, Ended::with(0, &report, "status 0\n"));
}

#[test]
fn a_reader_that_left() {
    let run = run();
    for start in ["", "trap '' PIPE; "] {
        let script =
            format!(r#"{start}"$1" examples/full.bath | sleep 0; exit ${{PIPESTATUS[0]}}"#);
        let told = ended(&mut bash(&script, &run));
        assert_eq!(told.status, Some(1), "{told:?}");
        assert!(told
            .said
            .starts_with("gondwize: the report could not be written in full"));
    }
}

/// A file that grows past the limit on sizes: the part that fits is there, and the failure is said.
#[test]
fn a_file_that_may_not_grow() {
    let room = Room::new("limit");
    let path = room.path("report");
    let script = r#"trap '' XFSZ; ulimit -f 8; exec "$1" examples/full.bath"#;
    let mut command = bash(script, &run());
    let told = ended(command.stdout(File::create(&path).expect("a file")));
    assert_eq!(
        (told.status, &told.said[..]),
        (
            Some(1),
            "gondwize: the report could not be written in full\n"
        )
    );
    let report = read_to_string(root().join("examples/full.txt")).expect("a sample");
    let taken = read_to_string(path).expect("text");
    assert!(!taken.is_empty() && taken.len() < report.len() && report.starts_with(&taken));
}
