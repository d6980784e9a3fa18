//! The lesson page's calls: those of this crate that check a size, a set or a file, for small baths.
//!
//! Each does what the function of the same name at the crate's root does, which is the bench's. For a bath of at
//! most [`MOST_RECORDS`] records and [`MOST_NODES`] nodes each way its outcome is the same, refused or not. Its
//! limits are smaller:
//!
//! - 2 where Nx or Ny is not 4 to 16;
//! - 3 where there are more than 512 records: in a file at the place of 3; in a set that is given directly after 2
//!   and all of 1, the grid buffers' too, and before what follows.
//!
//! The length of a set is judged as by the bench, so one of 513 to 4,096 records is refused with 3 and a longer one
//! with 1. A store is of the same form for both, and may hold baths that the page does not take.
//!
//! ```
//! use engine::{page, run, write_record, Edge, GridBuffers, Limit, Particle, Settings, Size};
//!
//! let particle = Particle { identifier: 7, mass: 2, x: 64, y: 64, vx: 3, ..Particle::default() };
//! let mut records = [0; engine::RECORD_LENGTH];
//! write_record(&particle, &mut records)?;
//!
//! let small = Settings { size: Size { nx: 16, ny: 5 }, gx: 0, gy: 0, edge: Edge::Open, drag: 0 };
//! let (mut mass, mut x, mut y) = ([0; 17 * 5], [0; 17 * 5], [0; 17 * 5]);
//! let mut grid = GridBuffers { mass: &mut mass[..80], x: &mut x[..80], y: &mut y[..80] };
//! assert_eq!(page::run(small, 9, &mut records, &mut grid).completed, 9);
//!
//! let wide = Settings { size: Size { nx: 17, ny: 5 }, ..small };
//! let mut grid = GridBuffers { mass: &mut mass, x: &mut x, y: &mut y };
//! let refusal = page::run(wide, 9, &mut records, &mut grid).refusal.expect("17 nodes");
//! assert_eq!(refusal.limit, Limit::GridSize);
//! assert_eq!(run(wide, 9, &mut records, &mut grid).completed, 9);
//! # Ok::<(), engine::Refusal>(())
//! ```

use crate::library::PAGE;
use crate::{count_by, header_by, run_by, totals_by, HEADER_LENGTH, RECORD_LENGTH};
use crate::{GridBuffers, Header, Refusal, RunAnswer, Settings, Size, Totals};

/// Most nodes along an axis.
pub const MOST_NODES: usize = 16;

/// Most records of a set and of a file.
pub const MOST_RECORDS: usize = 512;

/// Length of the longest bath file in bytes. A buffer that is returned into has at least the crate's
/// [`MOST_FILE_LENGTH`](crate::MOST_FILE_LENGTH), whatever the bath.
pub const MOST_FILE_LENGTH: usize = HEADER_LENGTH + RECORD_LENGTH * MOST_RECORDS;

/// [`check_set`](crate::check_set) for the page.
///
/// # Errors
///
/// Its own, with the page's limits; 3 after 1.
pub fn check_set(size: Size, records: &[u8]) -> Result<usize, Refusal> {
    count_by(&PAGE, size, records)
}

/// [`totals`](crate::totals) for the page.
///
/// # Errors
///
/// As [`check_set`].
pub fn totals(size: Size, records: &[u8]) -> Result<Totals, Refusal> {
    totals_by(&PAGE, size, records)
}

/// [`scatter`](crate::scatter) for the page.
///
/// # Errors
///
/// Its own, with the page's limits; 3 after 1.
pub fn scatter(size: Size, records: &[u8], grid: &mut GridBuffers) -> Result<(), Refusal> {
    Refusal::check(PAGE.scatter(size, records, grid))
}

/// [`adding_scatter`](crate::adding_scatter) for the page.
///
/// # Errors
///
/// Its own, with the page's limits; 3 after 1.
pub fn adding_scatter(size: Size, records: &[u8], grid: &mut GridBuffers) -> Result<(), Refusal> {
    Refusal::check(PAGE.adding_scatter(size, records, grid))
}

/// [`update`](crate::update) for the page.
///
/// # Errors
///
/// Its own, with the page's limits.
pub fn update(settings: Settings, grid: &mut GridBuffers) -> Result<(), Refusal> {
    Refusal::check(PAGE.update(settings, grid))
}

/// [`gather`](crate::gather) for the page.
///
/// # Errors
///
/// Its own, with the page's limits; 3 after 1.
pub fn gather(size: Size, records: &mut [u8], x: &[i64], y: &[i64]) -> Result<(), Refusal> {
    Refusal::check(PAGE.gather(size, records, x, y))
}

/// [`step`](crate::step) for the page.
///
/// # Errors
///
/// Its own, with the page's limits; 3 after 1.
pub fn step(settings: Settings, records: &mut [u8], grid: &mut GridBuffers) -> Result<(), Refusal> {
    Refusal::check(PAGE.step(settings, records, grid))
}

/// [`run`](crate::run) for the page; 3 comes after 1.
pub fn run(
    settings: Settings,
    steps: usize,
    records: &mut [u8],
    grid: &mut GridBuffers,
) -> RunAnswer {
    run_by(&PAGE, settings, steps, records, grid)
}

/// [`read_file`](crate::read_file) for the page.
///
/// # Errors
///
/// Its own, with the page's limits.
pub fn read_file(bytes: &[u8]) -> Result<Header, Refusal> {
    header_by(&PAGE, bytes)
}

/// [`keep`](crate::keep) for the page.
///
/// # Errors
///
/// Its own, with the page's limits for the file.
pub fn keep(store: &mut [u8], name: &[u8], file: &[u8]) -> Result<(), Refusal> {
    Refusal::check(PAGE.keep(store, name, file))
}
