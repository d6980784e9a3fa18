//! The table of stack by call and size, as README and the C header have it.

use std::collections::BTreeMap;
use std::fs;
use std::path::Path;

use reference::limits::{HEADER_LENGTH, RECORD_LENGTH};
use reference::{Caller, Store};
use vectors::{Buffers, Operation};

/// The rows: the name in README, and in the C header where it is a call. The lesson page has rows of its own where
/// [`OF_THE_PAGE`] says so; its other calls stand in the bench's.
pub const ROWS: [(&str, Option<&str>); 22] = [
    ("run", Some("gondwize_run")),
    ("run of no step", Some("gondwize_run, no step")),
    ("step", Some("gondwize_step")),
    ("lesson page: run", Some("gondwize_page_run")),
    ("lesson page: run of no step", Some(".. no step")),
    ("lesson page: step", Some("gondwize_page_step")),
    ("scatter", Some("gondwize_scatter")),
    ("adding scatter", Some("gondwize_adding_scatter")),
    ("adding scatter, to 320 nodes", Some(".. to 320 nodes")),
    ("update", Some("gondwize_update")),
    ("gather", Some("gondwize_gather")),
    ("check a set", Some("gondwize_check_set")),
    ("totals", Some("gondwize_totals")),
    ("weights", Some("gondwize_weights")),
    ("read a record", Some("gondwize_read_record")),
    ("write a record", Some("gondwize_write_record")),
    ("read a file", Some("gondwize_read_file")),
    ("write a header", Some("gondwize_write_header")),
    ("keep", Some("gondwize_keep")),
    ("return", Some("gondwize_return")),
    ("forget", Some("gondwize_forget")),
    ("the program", None),
];

/// The lesson page's rows.
pub const OF_THE_PAGE: std::ops::Range<usize> = 3..6;

/// The program's row.
pub const PROGRAM: usize = ROWS.len() - 1;

/// The columns: refused calls, and the others by the most particles of a call.
pub const COLUMNS: [&str; 6] = ["refused", "0", "1", "to 64", "to 512", "to 4,096"];
/// The most particles of each column but the first.
pub const MOST: [usize; 5] = [0, 1, 64, 512, 4096];

/// The refusals that a step which was begun tells, and a set that was scattered; such a call counts by
/// its particles.
const LATE: [u64; 5] = [13, 14, 15, 20, 21];

/// A place in the table.
#[derive(Clone, Copy, Debug, PartialEq, Eq, PartialOrd, Ord)]
pub struct Cell {
    /// Index of a row.
    pub row: usize,
    /// Index of a column.
    pub column: usize,
}

impl Cell {
    /// The names of its row and column.
    pub fn names(self) -> (&'static str, &'static str) {
        (ROWS[self.row].0, COLUMNS[self.column])
    }
}

/// The column of a call that is not refused, or late, on so many particles.
pub fn column(particles: usize) -> usize {
    1 + MOST.partition_point(|&most| most < particles)
}

/// The particles of a file.
fn of_file(file: &[u8]) -> usize {
    file.len().saturating_sub(HEADER_LENGTH) / RECORD_LENGTH
}

/// The particles that a call is counted by: those of its set, of its file, or of the bath that is held
/// under its name.
pub fn particles(operation: Operation, before: &Buffers) -> usize {
    match operation {
        Operation::Run(..)
        | Operation::Step(_)
        | Operation::Scatter(_)
        | Operation::AddingScatter(_)
        | Operation::Gather(_)
        | Operation::CheckSet(_)
        | Operation::Totals(_) => before.bytes.len() / RECORD_LENGTH,
        Operation::ReadFile | Operation::Keep => of_file(&before.bytes),
        Operation::Return | Operation::Forget => {
            let store = Store::read(&before.store).unwrap_or_default();
            store.held(&before.name).map_or(0, of_file)
        }
        _ => 0,
    }
}

/// The place of a caller's call on so many particles that answers this number.
pub fn cell(caller: Caller, operation: Operation, particles: usize, answer: u64) -> Cell {
    let page = caller == Caller::Page;
    let name = match operation {
        Operation::Run(_, 0) if page => "lesson page: run of no step",
        Operation::Run(..) if page => "lesson page: run",
        Operation::Step(_) if page => "lesson page: step",
        Operation::Run(_, 0) => "run of no step",
        Operation::Run(..) => "run",
        Operation::Step(_) => "step",
        Operation::Scatter(_) => "scatter",
        Operation::AddingScatter(size)
            if size.check(caller.limits()).is_ok() && size.nodes() <= 320 =>
        {
            "adding scatter, to 320 nodes"
        }
        Operation::AddingScatter(_) => "adding scatter",
        Operation::Update(_) => "update",
        Operation::Gather(_) => "gather",
        Operation::CheckSet(_) => "check a set",
        Operation::Totals(_) => "totals",
        Operation::Weights(_) => "weights",
        Operation::ReadRecord => "read a record",
        Operation::WriteRecord(_) => "write a record",
        Operation::ReadFile => "read a file",
        Operation::WriteHeader(_) => "write a header",
        Operation::Keep => "keep",
        Operation::Return => "return",
        Operation::Forget => "forget",
        Operation::Program => "the program",
    };
    let row = ROWS.iter().position(|row| row.0 == name).expect("a row");
    let refused = answer != 0 && !LATE.contains(&(answer >> 32));
    Cell {
        row,
        column: if refused { 0 } else { column(particles) },
    }
}

/// Bytes of stack, for those cells that have a number.
#[derive(Clone, Debug, Default, PartialEq, Eq)]
pub struct Table {
    cells: BTreeMap<Cell, usize>,
}

impl Table {
    /// At least so many bytes in a cell.
    pub fn raise(&mut self, cell: Cell, bytes: usize) {
        let most = self.cells.entry(cell).or_default();
        *most = bytes.max(*most);
    }

    /// The bytes of a cell, if it has a number.
    pub fn get(&self, cell: Cell) -> Option<usize> {
        self.cells.get(&cell).copied()
    }

    /// The cells that have more than another table says, or that it does not have: with the bytes here
    /// and there.
    pub fn beyond<'a>(
        &'a self,
        other: &'a Table,
    ) -> impl Iterator<Item = (Cell, usize, Option<usize>)> + 'a {
        let both = self
            .cells
            .iter()
            .map(|(&cell, &bytes)| (cell, bytes, other.cells.get(&cell).copied()));
        both.filter(|&(_, here, there)| there.is_none_or(|there| here > there))
    }

    /// The table without the program.
    #[must_use]
    pub fn of_calls(mut self) -> Self {
        self.cells.retain(|cell, _| cell.row != PROGRAM);
        self
    }

    /// How many cells have a number.
    pub fn len(&self) -> usize {
        self.cells.len()
    }

    /// Whether no cell has one.
    pub fn is_empty(&self) -> bool {
        self.cells.is_empty()
    }

    /// A row's cells as text: kB of 1,000 bytes, rounded up to a tenth; for the program, which also
    /// starts and is given its environment, to whole tens with ten to spare.
    fn texts(&self, row: usize) -> [String; COLUMNS.len()] {
        let text = |bytes: usize| {
            if row == PROGRAM {
                format!("{}", 10 * (bytes + 10_000).div_ceil(10_000))
            } else {
                let tenths = bytes.div_ceil(100);
                format!("{}.{}", tenths / 10, tenths % 10)
            }
        };
        std::array::from_fn(|column| {
            let bytes = self.cells.get(&Cell { row, column });
            bytes.map_or(String::new(), |&bytes| text(bytes))
        })
    }

    /// The table as README has it.
    pub fn for_readme(&self) -> String {
        let mut lines = vec![
            readme_head(),
            format!("|{}", " --- |".repeat(1 + COLUMNS.len())),
        ];
        for (row, (name, _)) in ROWS.iter().enumerate() {
            lines.push(format!("| {name} | {} |", self.texts(row).join(" | ")));
        }
        lines.join("\n")
    }

    /// The table as the C header has it.
    pub fn for_header(&self) -> String {
        let line = |name: &str, texts: &[String]| {
            let texts: String = texts.iter().map(|text| format!("{text:>9}")).collect();
            format!(" *     {name:<24}{}", texts.trim_end())
        };
        let mut lines = vec![line("kB", &COLUMNS.map(str::to_owned))];
        for (row, (_, name)) in ROWS.iter().enumerate() {
            lines.extend(name.map(|name| line(name, &self.texts(row))));
        }
        lines.join("\n")
    }
}

/// The first line of README's table.
fn readme_head() -> String {
    format!("| stack in kB | {} |", COLUMNS.join(" | "))
}

/// kB as bytes.
fn bytes(text: &str) -> usize {
    let (whole, tenths) = text.split_once('.').unwrap_or((text, "0"));
    let number =
        |text: &str| -> usize { text.parse().unwrap_or_else(|_| panic!("no number: {text}")) };
    assert_eq!(tenths.len(), 1, "not in tenths: {text}");
    1000 * number(whole) + 100 * number(tenths)
}

/// A row's texts as cells.
fn put(
    table: &mut Table,
    row: Option<usize>,
    line: &str,
    texts: impl Iterator<Item = impl AsRef<str>>,
) {
    let row = row.unwrap_or_else(|| panic!("no row of the table: {line}"));
    for (column, text) in texts.enumerate() {
        assert!(column < COLUMNS.len(), "too many columns: {line}");
        if !text.as_ref().is_empty() {
            table.raise(Cell { row, column }, bytes(text.as_ref()));
        }
    }
}

/// The table in README's text.
pub fn of_readme(text: &str) -> Table {
    let mut table = Table::default();
    let head = readme_head();
    let lines = text.lines().skip_while(|line| **line != head).skip(2);
    for line in lines.take_while(|line| line.starts_with('|')) {
        let mut parts = line.trim_matches('|').split('|').map(str::trim);
        let name = parts.next();
        let row = ROWS.iter().position(|row| Some(row.0) == name);
        put(&mut table, row, line, parts);
    }
    table
}

/// The table in the C header's text.
pub fn of_header(text: &str) -> Table {
    let mut table = Table::default();
    let lines = text
        .lines()
        .skip_while(|line| !line.starts_with(" *     kB "))
        .skip(1);
    for line in lines.take_while(|line| line.starts_with(" *     ")) {
        let mut parts = line[3..]
            .split("  ")
            .map(str::trim)
            .filter(|part| !part.is_empty());
        let name = parts.next();
        let row = ROWS.iter().position(|row| row.1 == name);
        put(&mut table, row, line, parts);
    }
    table
}

/// The table in the repository's README.
pub fn in_readme(root: &Path) -> Table {
    of_readme(&fs::read_to_string(root.join("README.md")).expect("README.md"))
}

/// The table in the repository's C header.
pub fn in_header(root: &Path) -> Table {
    of_header(&fs::read_to_string(root.join("include/gondwize.h")).expect("the C header"))
}
