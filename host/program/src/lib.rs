//! The program and the command `run`, as a user meets them: what the tests call.

#![forbid(unsafe_code)]
#![warn(missing_docs)]

use std::fs;
use std::path::{Path, PathBuf};
use std::process::{Command, Output};
use std::sync::Once;

/// The repository.
pub fn root() -> PathBuf {
    let root = Path::new(env!("CARGO_MANIFEST_DIR")).join("../..");
    root.canonicalize().expect("the repository")
}

/// The command `run`. Its first call here proves and builds what has to be, so that no later one says that it does.
pub fn run() -> PathBuf {
    static READY: Once = Once::new();
    let run = root().join("run");
    READY.call_once(|| {
        let told = ended(Command::new(&run).arg(root().join("examples/printed.bath")));
        assert_eq!(told.status, Some(0), "{}", told.said);
    });
    run
}

/// The program, proved and built.
pub fn program() -> PathBuf {
    run();
    root().join("target/bin/simulate")
}

/// How a command ended.
#[derive(Clone, Debug, PartialEq, Eq)]
pub struct Ended {
    /// Its exit status, none where a signal ended it.
    pub status: Option<i32>,
    /// Standard output.
    pub wrote: String,
    /// Standard error.
    pub said: String,
}

impl From<Output> for Ended {
    fn from(output: Output) -> Self {
        let text = |bytes: &[u8]| String::from_utf8_lossy(bytes).into_owned();
        Ended {
            status: output.status.code(),
            wrote: text(&output.stdout),
            said: text(&output.stderr),
        }
    }
}

impl Ended {
    /// An end with this status and these texts.
    pub fn with(status: i32, wrote: &str, said: &str) -> Self {
        Ended {
            status: Some(status),
            wrote: wrote.to_owned(),
            said: said.to_owned(),
        }
    }
}

/// Bash with this script, in which `$1` is the path of a command, in the repository.
pub fn bash(script: &str, command: &Path) -> Command {
    let mut bash = Command::new("bash");
    bash.args(["-c", script, "bash"]).arg(command);
    bash.current_dir(root());
    bash
}

/// Runs a command to its end.
pub fn ended(command: &mut Command) -> Ended {
    command.output().expect("a command that starts").into()
}

/// A folder that is removed in the end.
pub struct Room(PathBuf);

impl Room {
    /// An empty folder of this name.
    pub fn new(name: &str) -> Self {
        let path = std::env::temp_dir().join(format!("gondwize-{}-{name}", std::process::id()));
        fs::create_dir_all(&path).expect("a temporary folder");
        Room(path.canonicalize().expect("a temporary folder"))
    }

    /// The path of something in it.
    pub fn path(&self, name: &str) -> PathBuf {
        self.0.join(name)
    }

    /// Writes a file, with its folders.
    pub fn write(&self, name: &str, contents: impl AsRef<[u8]>) -> PathBuf {
        let path = self.path(name);
        let folder = path.parent().expect("a folder");
        fs::create_dir_all(folder).expect("a folder that can be written");
        fs::write(&path, contents).expect("a file that can be written");
        path
    }

    /// Runs a command in it, which has to end well: what it wrote.
    pub fn command(&self, name: &str, words: &[&str]) -> String {
        let told = ended(Command::new(name).args(words).current_dir(&self.0));
        assert_eq!(told.status, Some(0), "{name} {words:?}: {told:?}");
        told.wrote
    }

    /// Copies a file or a folder of the repository, with its times.
    pub fn copy(&self, name: &str) {
        self.copy_from(&root().join(name), name);
    }

    /// Copies a file or a folder from anywhere, with its times.
    pub fn copy_from(&self, from: &Path, name: &str) {
        let to = self.path(name);
        fs::create_dir_all(to.parent().expect("a folder")).expect("a folder that can be written");
        let copied = Command::new("cp").arg("-a").args([from, &to]).status();
        assert!(
            copied.is_ok_and(|status| status.success()),
            "{name} could not be copied"
        );
    }
}

impl Drop for Room {
    fn drop(&mut self) {
        // What is left lies in the folder for temporary files.
        let _ = fs::remove_dir_all(&self.0);
    }
}

/// The words of a refusal by the list in `include/gondwize.h`.
pub fn words(number: u32) -> String {
    let header = fs::read_to_string(root().join("include/gondwize.h")).expect("the header");
    let start = format!("X({number},");
    let line = header
        .lines()
        .find(|line| line.trim_start().starts_with(&start));
    let line = line.unwrap_or_else(|| panic!("refusal {number} is not in the header"));
    line.split('"').nth(1).expect("words in quotes").to_owned()
}
