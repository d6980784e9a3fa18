//! The built program on many bath files: what it writes, byte for byte, is the reference's text.

use std::collections::BTreeSet;
use std::io::{ErrorKind, Write};
use std::path::Path;
use std::process::{Command, Output, Stdio};

use compare::inputs::bath_file;
use compare::{count, seed, stream};
use program::program;
use reference::limits::{HEADER_LENGTH, MAX_SET_LENGTH};
use reference::report::program_by;
use reference::{read_file, Header, Settings, Sums};

/// From this many files on every kind of the list has to come up.
const ENOUGH: u64 = 3_000;

/// One more than the bytes of the longest file that is accepted.
const TOO_LONG: usize = HEADER_LENGTH + MAX_SET_LENGTH + 1;

/// Runs the program on a file that comes through a pipe in two parts.
fn run(program: &Path, file: &[u8], cut: usize) -> Output {
    let mut child = Command::new(program)
        .stdin(Stdio::piped())
        .stdout(Stdio::piped())
        .stderr(Stdio::piped())
        .spawn()
        .expect("the program starts");
    let mut input = child.stdin.take().expect("a pipe");
    for part in [&file[..cut], &file[cut..]] {
        let written = input.write_all(part);
        // The program reads no further than one byte beyond the longest file.
        let left = written.is_err_and(|error| error.kind() != ErrorKind::BrokenPipe);
        assert!(!left, "the input could not be written");
    }
    drop(input);
    child.wait_with_output().expect("the program ends")
}

/// The reference's text: all terms of the sums where they are few, and those near each particle else.
fn expected(file: &[u8]) -> String {
    let terms = read_file(file).map_or(0, |header| {
        header.settings.size.nodes() as i128 * header.count * header.steps
    });
    let sums = if terms <= 10_000 {
        Sums::Literal
    } else {
        Sums::Nearby
    };
    program_by(sums, file)
}

/// Whether sizes and gravity differ between the axes, with gravity on both.
fn is_skew(settings: Settings) -> bool {
    let Settings { size, gx, gy, .. } = settings;
    size.nx != size.ny && gx != gy && gx != 0 && gy != 0
}

/// What the steps of an accepted file are worked with: the kind of edge, and drag.
fn forcing(file: &[u8]) -> Option<String> {
    let Header {
        settings,
        count,
        steps,
    } = read_file(file).ok()?;
    let drag = if settings.drag > 0 { "drag" } else { "no drag" };
    (count > 0 && steps > 0).then(|| format!("kind {} with {drag}", settings.edge.kind))
}

/// What a file shows, by its text: refused, completed or stopped, and by which number.
fn kind(file: &[u8], text: &str) -> String {
    let words: Vec<&str> = text.lines().next().expect("a line").split(' ').collect();
    match (words[0], read_file(file)) {
        (
            "done",
            Ok(Header {
                settings, steps, ..
            }),
        ) => {
            let skew = if is_skew(settings) { "skew" } else { "plain" };
            let stopped = words[1] != steps.to_string();
            assert_eq!(stopped, words[3] != "0");
            let moved = if words[1] == "0" {
                "at once"
            } else {
                "after steps"
            };
            format!("{skew} {moved} {}", words[3])
        }
        (first, _) => format!("{first} {}", words[1]),
    }
}

#[test]
fn writes_what_the_reference_does() {
    let program = program();
    let files = count() * 3 / 20;
    let mut seen = BTreeSet::new();
    for number in 0..files {
        let mut numbers = stream("the program", number);
        let file = bath_file(&mut numbers);
        let cut = numbers.between(0, file.len() as i128) as usize;
        let told = format!("COMPARE_SEED {}, file {number}", seed());
        let (text, output) = (expected(&file), run(&program, &file, cut));
        assert!(output.status.success(), "{told}: {:?}", output.status);
        let (written, said) = (
            String::from_utf8_lossy(&output.stdout),
            String::from_utf8_lossy(&output.stderr),
        );
        assert!(
            written == text,
            "{told}: the program\n{written}\nthe reference\n{text}"
        );
        let refused = text.starts_with("refused");
        assert_eq!(said, if refused { &text[..] } else { "" }, "{told}");
        seen.insert(kind(&file, &text));
        seen.extend(forcing(&file));
        if file.len() >= TOO_LONG {
            seen.insert(format!("too long, {}", file.len() > TOO_LONG));
        }
    }
    let refusals = [1, 2, 3, 4, 5, 6, 7, 8, 9, 10, 16, 17, 18];
    let mut listed: BTreeSet<String> = refusals.map(|number| format!("refused {number}")).into();
    listed.extend(["too long, false", "too long, true"].map(str::to_owned));
    for kind in 0..3 {
        listed.extend(["drag", "no drag"].map(|drag| format!("kind {kind} with {drag}")));
    }
    for skew in ["skew", "plain"] {
        for end in [
            "after steps 0",
            "after steps 13",
            "after steps 14",
            "after steps 15",
        ] {
            listed.insert(format!("{skew} {end}"));
        }
    }
    let missing: Vec<_> = listed.difference(&seen).collect();
    assert!(
        files < ENOUGH || missing.is_empty(),
        "no file came up for {missing:?}"
    );
}
