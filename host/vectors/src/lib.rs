//! Calls of every operation of documents 01 and 02 with their answers by the reference, one per line.
//!
//! # A line
//!
//! `NAME | OPERATION | BUFFERS | ANSWER | BUFFERS AFTER`
//!
//! - NAME is `operation/case`, for the lesson page `page-operation/case`; a call of a list is `list/case/number`, and gets the records or the store
//!   that the call before left.
//! - OPERATION is the operation, behind `page-` where the lesson page calls it, and the numbers that it is
//!   given, each after its name.
//! - BUFFERS are those that the operation is given, each after its name, and BUFFERS AFTER those of
//!   them that it changed, or `unchanged`.
//!   - `bytes` and `header` are hexadecimal, a part of equal bytes as `XX*COUNT`.
//!   - `records` are `[identifier mass x y vx vy Bxx Bxy Byx Byy marks]` one after another, whatever
//!     their bits hold; `[5..9 .. 3]` are records that differ in their rising identifiers alone,
//!     `[5..9 .. 3..7]` in identifiers and marks that rise together; `[..]*COUNT` are equal ones; bytes after
//!     the last whole record are `+` and hexadecimal.
//!   - `mass`, `x`, `y` are the grid buffers in the order of the nodes, numbers with a comma between,
//!     equal ones as `NUMBER*COUNT`; for gather, `x` and `y` are the velocity buffers.
//!   - `file`, and the `buffer` of a return, are a header in hexadecimal and records.
//!   - `name` is its letters in quotes, or else hexadecimal.
//!   - `store` is its four places, `{}` for one that is free and else `{NAME HEADER RECORDS}`: NAME is
//!     letters, or else eight bytes, and RECORDS reach the last byte that is not zero. A store of another
//!     length is hexadecimal.
//!   - `none` is a buffer of no length.
//! - ANSWER is `refused R at P`, or `ok` with what the operation hands back; for run it is
//!   `done N refusal R at P`, for the program its text with `\n` for each line feed.

#![forbid(unsafe_code)]
#![warn(missing_docs)]

mod cases;
pub mod roundings;
mod text;

use reference::report::program;
use reference::{
    adding_scatter_for, check_set_for, gather_for, keep_for, read_file_for, run_for, scatter_for,
    step_for, totals_for, update_for, Caller, Sums,
};
use reference::{forget, read_record, return_to, weights, write_header, write_record};
use reference::{Grid, Header, Particle, Refusal, RunAnswer, Settings, Size, Totals};

pub use cases::cases;

/// An operation with the numbers that it is given.
#[derive(Clone, Copy, Debug, PartialEq, Eq)]
#[allow(missing_docs)]
pub enum Operation {
    ReadRecord,
    WriteRecord(Particle),
    CheckSet(Size),
    Totals(Size),
    Weights(i128),
    Scatter(Size),
    AddingScatter(Size),
    Update(Settings),
    Gather(Size),
    Step(Settings),
    Run(Settings, i128),
    ReadFile,
    WriteHeader(Header),
    Keep,
    Return,
    Forget,
    Program,
}

/// The buffers of a call; those that its operation does not take are empty.
#[derive(Clone, Debug, PartialEq, Eq)]
pub struct Buffers {
    /// A record, the records of a set, a file, or a buffer to write to.
    pub bytes: Vec<u8>,
    /// Node masses, and momenta or velocities.
    pub grid: Grid,
    /// A store.
    pub store: Vec<u8>,
    /// A name.
    pub name: Vec<u8>,
}

impl Buffers {
    /// Bytes and a grid.
    pub fn new(bytes: Vec<u8>, grid: Grid) -> Self {
        Buffers {
            bytes,
            grid,
            store: Vec::new(),
            name: Vec::new(),
        }
    }

    /// Bytes alone.
    pub fn of_bytes(bytes: Vec<u8>) -> Self {
        Buffers::new(bytes, Grid::zero(0))
    }

    /// A store, a name, and a file or a buffer to write one to.
    pub fn of_store(store: Vec<u8>, name: &[u8], bytes: Vec<u8>) -> Self {
        Buffers {
            store,
            name: name.to_vec(),
            ..Buffers::of_bytes(bytes)
        }
    }
}

/// What an operation answers.
#[derive(Clone, Debug, PartialEq, Eq)]
#[allow(missing_docs)]
pub enum Answer {
    Refused(Refusal),
    Done,
    Particle(Particle),
    Count(usize),
    Totals(Totals),
    Weights([i128; 3]),
    Ran(RunAnswer),
    Header(Header),
    Length(usize),
    Text(String),
}

impl Answer {
    /// The refusal in the answer, if there is one.
    pub fn refusal(&self) -> Option<Refusal> {
        match self {
            Answer::Refused(refusal) => Some(*refusal),
            Answer::Ran(answer) => answer.refusal,
            _ => None,
        }
    }
}

/// A call with its answer and the buffers that it leaves.
#[derive(Clone, Debug, PartialEq, Eq)]
pub struct Case {
    /// `operation/case`, different for each case.
    pub name: String,
    /// Who calls; the bench where the operation knows no caller.
    pub caller: Caller,
    /// The operation and its numbers.
    pub operation: Operation,
    /// The buffers before the call.
    pub before: Buffers,
    /// The answer by the reference.
    pub answer: Answer,
    /// The buffers after the call by the reference.
    pub after: Buffers,
    /// The refusal written down with the case, to hold against the answer; worked out from documents
    /// 01 and 02 but for `run/stopped-at-its-6th-step-by-14` and `list/spreading/6`, where the reference
    /// gave it.
    pub stated: Option<Refusal>,
}

/// The answer of the reference to a caller; the buffers are left as the operation leaves them.
pub fn perform(caller: Caller, operation: Operation, buffers: &mut Buffers) -> Answer {
    let Buffers {
        bytes,
        grid,
        store,
        name,
    } = buffers;
    let sums = Sums::Literal;
    let answer = match operation {
        Operation::ReadRecord => read_record(bytes).map(Answer::Particle),
        Operation::WriteRecord(particle) => write_record(&particle, bytes).map(|()| Answer::Done),
        Operation::CheckSet(size) => check_set_for(caller, size, bytes).map(Answer::Count),
        Operation::Totals(size) => totals_for(caller, size, bytes).map(Answer::Totals),
        Operation::Weights(q) => weights(q).map(Answer::Weights),
        Operation::Scatter(size) => {
            scatter_for(caller, sums, size, bytes, &mut grid.buffers()).map(|()| Answer::Done)
        }
        Operation::AddingScatter(size) => {
            adding_scatter_for(caller, sums, size, bytes, &mut grid.buffers())
                .map(|()| Answer::Done)
        }
        Operation::Update(settings) => {
            update_for(caller, settings, &mut grid.buffers()).map(|()| Answer::Done)
        }
        Operation::Gather(size) => {
            gather_for(caller, sums, size, bytes, &grid.x, &grid.y).map(|()| Answer::Done)
        }
        Operation::Step(settings) => {
            step_for(caller, sums, settings, bytes, &mut grid.buffers()).map(|()| Answer::Done)
        }
        Operation::Run(settings, steps) => Ok(Answer::Ran(run_for(
            caller,
            sums,
            settings,
            steps,
            bytes,
            &mut grid.buffers(),
        ))),
        Operation::ReadFile => read_file_for(caller, bytes).map(Answer::Header),
        Operation::WriteHeader(header) => write_header(&header, bytes).map(|()| Answer::Done),
        Operation::Keep => keep_for(caller, store, name, bytes).map(|()| Answer::Done),
        Operation::Return => return_to(store, name, bytes).map(Answer::Length),
        Operation::Forget => forget(store, name).map(|()| Answer::Done),
        Operation::Program => Ok(Answer::Text(program(bytes))),
    };
    answer.unwrap_or_else(Answer::Refused)
}
