//! The stack that the program needs: the least that it is given and still ends well.

use std::io::Write;
use std::process::{Command, Stdio};

/// The unit of the shell's limit, and the bytes of a page.
const UNIT: usize = 1024;
const PAGE: usize = 4096;
/// Room for what the system itself puts on a program's stack.
const FEWEST: usize = 32;
const MOST: usize = 2048;
/// Where the stack begins in its first pages is left to chance.
const TRIALS: usize = 4;

/// Whether the program runs a file on a stack of so many pages.
fn ends_well(file: &[u8], pages: usize) -> bool {
    let mut bash = Command::new("bash");
    bash.args(["-c", "ulimit -s $1 && exec -c \"$2\"", "bash"]);
    bash.arg((pages * PAGE / UNIT).to_string());
    bash.arg(program::root().join("target/bin/simulate"));
    bash.stdin(Stdio::piped())
        .stdout(Stdio::null())
        .stderr(Stdio::null());
    let mut child = bash.spawn().expect("bash");
    // A program that is killed does not read.
    let _ = child.stdin.take().expect("its input").write_all(file);
    child.wait().expect("its end").success()
}

/// The fewest bytes of stack, in whole pages, on which the program runs a file.
pub fn least(file: &[u8]) -> usize {
    let enough = |pages| (0..TRIALS).all(|_| ends_well(file, pages));
    assert!(enough(MOST), "target/bin/simulate does not run");
    let (mut few, mut many) = (FEWEST, MOST);
    while few + 1 < many {
        let pages = (few + many) / 2;
        if enough(pages) {
            many = pages;
        } else {
            few = pages;
        }
    }
    PAGE * many
}
