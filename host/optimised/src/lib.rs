//! Document 01 with document 02's Papers 1 to 6, 8 and 9 in Rust, written for speed: what the proved
//! engine is measured against.
//!
//! The functions take what those of `include/gondwize.h` take, in the same order, a slice for each
//! pointer with its length, and answer the same numbers; those that serve both callers take the caller
//! before. Records are unpacked once per call, as two
//! words each, and packed without identifier and marks, which no step changes; scratch memory is on the
//! stack and never cleared; indices that the checks have shown to be in range are not checked again.

#![warn(missing_docs)]

pub mod c;
mod caller;
mod file;
mod particle;
mod rounding;
mod set;
mod settings;
mod simulation;
mod spline;
mod store;
mod transfer;
mod update;

pub use caller::Caller;
pub use file::{read_file, write_header};
pub use particle::{read_record, write_record};
pub use set::{check_set, totals};
pub use simulation::{run, step};
pub use spline::weights;
pub use store::{forget, keep, return_to};
pub use transfer::{adding_scatter, gather, scatter};
pub use update::update;

/// A refusal's number and place as one answer.
const fn refused(number: u64, place: usize) -> u64 {
    number << 32 | place as u64
}

/// The answer of a call without values.
fn answer(result: Result<(), u64>) -> u64 {
    result.err().unwrap_or(0)
}
