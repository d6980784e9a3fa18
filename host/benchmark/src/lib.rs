//! The proved engine and Rust written for speed, behind one interface, and baths to time them on.
//!
//! | module | holds |
//! | --- | --- |
//! | [`library`] | the interface: the calls of `include/gondwize.h`, by the static library, by `optimised` and by other builds of the library |
//! | [`bath`] | baths whose runs do not stop early |
//! | [`measure`] | interleaved rounds, medians and spreads |
//! | [`lines`] | what is timed |
//! | [`tables`] | the tables of times |
//! | [`stack`] | the stack that a call needs |

#![warn(missing_docs)]

pub mod bath;
pub mod library;
pub mod lines;
pub mod measure;
pub mod stack;
pub mod tables;
