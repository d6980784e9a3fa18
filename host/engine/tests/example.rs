//! The example `simulate` as a process: what it prints, what it says on standard error, its status.

use std::fs::File;
use std::path::{Path, PathBuf};
use std::process::{Command, Output, Stdio};
use std::sync::OnceLock;

/// The example, built as this test is.
fn program() -> &'static Path {
    static PROGRAM: OnceLock<PathBuf> = OnceLock::new();
    PROGRAM.get_or_init(|| {
        let test = std::env::current_exe().expect("this test's path");
        let folder = test.ancestors().nth(2).expect("target/PROFILE/deps/TEST");
        let target = folder.parent().expect("target/PROFILE");
        let mut build = Command::new(env!("CARGO"));
        build.args(["build", "--offline", "--quiet", "--package", "engine"]);
        build.args(["--example", "simulate", "--target-dir"]);
        build.arg(target).current_dir(env!("CARGO_MANIFEST_DIR"));
        if folder.ends_with("release") {
            build.arg("--release");
        }
        assert!(build.status().expect("cargo").success());
        folder.join("examples/simulate")
    })
}

fn samples() -> PathBuf {
    Path::new(env!("CARGO_MANIFEST_DIR")).join("../../examples")
}

/// Runs the example on a file, its standard output going there.
fn simulate(file: &Path, out: Stdio) -> Output {
    let mut command = Command::new(program());
    let command = command.arg(file).stdin(Stdio::null()).stdout(out);
    let child = command.stderr(Stdio::piped()).spawn().expect("the example");
    child.wait_with_output().expect("its end")
}

/// Standard output, standard error and status of a run on this file.
fn ran(file: &Path) -> (String, String, Option<i32>) {
    let output = simulate(file, Stdio::piped());
    let text = |bytes| String::from_utf8(bytes).expect("text");
    (
        text(output.stdout),
        text(output.stderr),
        output.status.code(),
    )
}

#[test]
fn every_sample() {
    let mut found = 0;
    for entry in samples().read_dir().expect("the folder of samples") {
        let path = entry.expect("an entry").path();
        if path.extension().is_none_or(|ending| ending != "bath") {
            continue;
        }
        let expected = std::fs::read_to_string(path.with_extension("txt")).expect("its text");
        let (out, errors, status) = ran(&path);
        assert!(out == expected, "{}: {out}", path.display());
        let refused = expected.starts_with("refused");
        assert_eq!(status, Some(if refused { 2 } else { 0 }));
        assert_eq!(errors.is_empty(), !refused, "{errors}");
        found += 1;
    }
    assert!(found >= 6, "only {found} samples");
}

#[test]
fn a_refused_file() {
    let path = samples().join("refused.bath");
    let (out, errors, status) = ran(&path);
    assert_eq!(out, "refused 8 at 2\n");
    let sentence = format!(
        "simulate: {}: refused 8 at 2: an identifier is not above the one before\n",
        path.display()
    );
    assert_eq!(errors, sentence);
    assert_eq!(status, Some(2));
}

#[test]
fn a_file_that_is_not_there() {
    let (out, errors, status) = ran(&samples().join("no.bath"));
    assert_eq!(out, "");
    assert!(errors.contains("no.bath cannot be read"), "{errors}");
    assert_eq!(status, Some(1));
}

#[test]
fn no_file() {
    let output = Command::new(program()).output().expect("the example");
    assert!(output.stdout.is_empty());
    assert_eq!(output.stderr, b"simulate: which bath file?\n");
    assert_eq!(output.status.code(), Some(1));
}

/// Standard output is a device that is full: short reports, long ones, and that of a refused file.
#[test]
fn a_report_that_cannot_be_written() {
    for name in ["printed", "full", "refused"] {
        let full = File::options().write(true).open("/dev/full");
        let path = samples().join(name).with_extension("bath");
        let output = simulate(&path, full.expect("a full device").into());
        let errors = String::from_utf8(output.stderr).expect("text");
        let said = "simulate: the report cannot be written: ";
        assert!(errors.starts_with(said), "{name}: {errors}");
        assert_eq!(output.status.code(), Some(1), "{name}");
    }
}
