//! The table of weights in compiled files: that it stands there as 33 rows, once.
//!
//! The rows of offsets q and −q mirror each other, so those of 0 to 32 are enough as constants. A
//! compiler may still keep the 64 rows that are made of them, or a copy for each function that uses
//! them. So every section that is loaded is looked at, code and writable data as well, in objects,
//! archives and programs. A file breaks the rule where
//!
//! - [`TABLE`](rule::TABLE) numbers of offsets −32 to −1 or more stand in it;
//! - as many numbers of offsets 0 to 32 stand in it at two places or more;
//! - fewer than [`SEEN`](rule::SEEN) of these stand in it at all, since then the look is blind.
//!
//! | module | holds |
//! | --- | --- |
//! | [`sections`] | the sections of a file |
//! | [`weights`] | the numbers, and where they stand among bytes |
//! | [`rule`] | the rule above |

#![forbid(unsafe_code)]
#![warn(missing_docs)]

pub mod rule;
pub mod sections;
pub mod weights;

use std::fmt;
use std::fs;
use std::path::Path;

use sections::{Kind, Section};
use weights::{Numbers, ALL, KEPT, MIRRORED};

/// What was found in a file.
#[derive(Clone, Debug, Default, PartialEq, Eq)]
pub struct Found {
    /// The bytes of read-only data.
    pub read_only: usize,
    /// The bytes of code.
    pub code: usize,
    /// The numbers of offsets 0 to 32 that stand in it.
    pub kept: usize,
    /// Those of them that stand at two places or more.
    pub twice: usize,
    /// The numbers of offsets −32 to −1 that stand in it.
    pub mirrored: usize,
    /// The sections in which as many numbers stand as make a table, and how many.
    pub tables: Vec<(String, usize)>,
}

impl fmt::Display for Found {
    fn fmt(&self, out: &mut fmt::Formatter) -> fmt::Result {
        let Found {
            read_only,
            code,
            kept,
            twice,
            mirrored,
            ..
        } = self;
        write!(
            out,
            "{read_only} bytes of read-only data, {code} of code; weights of offsets 0 to 32: {kept} of {KEPT} numbers, \
             {twice} of them twice; of offsets -32 to -1: {mirrored} of {MIRRORED}"
        )
    }
}

/// Looks at sections.
pub fn look_at(sections: &[Section]) -> Found {
    let numbers = Numbers::default();
    let mut found = Found::default();
    let mut places = [0; ALL];
    for Section { name, kind, bytes } in sections {
        match kind {
            Kind::ReadOnly => found.read_only += bytes.len(),
            Kind::Code => found.code += bytes.len(),
            Kind::Writable => {}
        }
        let here = numbers.places(bytes, *kind == Kind::Code);
        let standing = here.iter().filter(|&&count| count > 0).count();
        if standing >= rule::TABLE {
            found.tables.push((name.clone(), standing));
        }
        for (all, here) in places.iter_mut().zip(here) {
            *all += here;
        }
    }
    let count = |places: &[usize], least| places.iter().filter(|&&count| count >= least).count();
    let (mirrored, kept) = places.split_at(MIRRORED);
    found.kept = count(kept, 1);
    found.twice = count(kept, 2);
    found.mirrored = count(mirrored, 1);
    found
}

/// Looks at an object file, an archive of them, or a program.
///
/// # Errors
///
/// Where the file cannot be read, is none of these for x86-64, or is not whole.
pub fn look(file: &Path) -> Result<Found, String> {
    let named = |why: String| format!("{}: {why}", file.display());
    let bytes = fs::read(file).map_err(|error| named(format!("it could not be read: {error}")))?;
    let sections = sections::of(&bytes).map_err(named)?;
    Ok(look_at(&sections))
}
