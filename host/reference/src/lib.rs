//! Two-dimensional APIC with the quadratic B-spline in whole numbers: the whole of document 01 with
//! document 02's Papers 1, 3 to 6, 8 and 9, written from the documents, as literal sums over all
//! particles and all nodes.
//!
//! | module | operations |
//! | --- | --- |
//! | [`spline`] | weights |
//! | [`particle`] | read a record, write a record |
//! | [`particle_set`] | check a set, totals |
//! | [`transfer`] | scatter, adding scatter, update, gather |
//! | [`edge`] | the rim that an update gives to the nodes of the band |
//! | [`simulation`] | step, run |
//! | [`bath_file`] | read a file, write a header |
//! | [`store`] | keep, return to and forget a bath |
//! | [`report`] | the program's text |
//! | [`caller`] | the limits of the bench and of the lesson page |
//! | [`conservation`] | what demand 3 keeps, its sums and allowances |
//! | [`generator`] | seeded numbers for samples and tests |
//!
//! Numbers a caller may choose freely are `i128`, so that every value of every narrower type can be
//! asked about. A refused call leaves every buffer as it was, unless the documents say otherwise.
//!
//! An operation that checks a size, a set or a file is the bench's under its own name; with `_for` after
//! it, that of the caller that it is given.

#![forbid(unsafe_code)]
#![warn(missing_docs)]

pub mod bath_file;
pub mod bits;
pub mod caller;
pub mod conservation;
pub mod edge;
pub mod generator;
pub mod grid;
pub mod limits;
pub mod particle;
pub mod particle_set;
pub mod refusal;
pub mod report;
pub mod rounding;
pub mod simulation;
pub mod spline;
pub mod store;
pub mod transfer;

pub use bath_file::{read_file, read_file_for, write_header, Header};
pub use caller::Caller;
pub use edge::Edge;
pub use grid::{Grid, GridBuffers, Settings, Size};
pub use particle::{read_record, write_record, Particle};
pub use particle_set::{check_set, check_set_for, totals, totals_for, Totals};
pub use refusal::Refusal;
pub use report::program;
pub use simulation::{run, run_for, step, step_for, RunAnswer};
pub use spline::weights;
pub use store::{forget, keep, keep_for, return_to, Store};
pub use transfer::{adding_scatter, adding_scatter_for, gather, gather_for};
pub use transfer::{scatter, scatter_for, update, update_for, Sums};
