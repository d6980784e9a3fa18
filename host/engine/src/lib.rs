//! Two-dimensional APIC (affine particle-in-cell) with the quadratic B-spline in whole numbers: the
//! proved engine, called through its static library.
//!
//! A particle set is a slice of records, 15 bytes each. An operation takes any numbers and any
//! slices, of any length. It does all that it promises or says which [`Limit`] is broken and where,
//! and then has changed nothing, unless its own text says otherwise.
//!
//! ```
//! use engine::{run, write_record, Edge, GridBuffers, Particle, Settings, Size};
//!
//! let particle =
//!     Particle { identifier: 7, mass: 2, x: 64, y: 64, vx: 3, vy: -2, marks: 5, ..Particle::default() };
//! let mut records = [0; engine::RECORD_LENGTH];
//! write_record(&particle, &mut records)?;
//!
//! let settings = Settings { size: Size { nx: 4, ny: 5 }, gx: 0, gy: 0, edge: Edge::Open, drag: 0 };
//! let (mut mass, mut x, mut y) = ([0; 20], [0; 20], [0; 20]);
//! let mut grid = GridBuffers { mass: &mut mass, x: &mut x, y: &mut y };
//! let answer = run(settings, 1, &mut records, &mut grid);
//! assert_eq!((answer.completed, answer.refusal), (1, None));
//! let particle = engine::read_record(&records)?;
//! assert_eq!((particle.x, particle.y, particle.marks), (67, 62, 5));
//! # Ok::<(), engine::Refusal>(())
//! ```
//!
//! | operation | function |
//! | --- | --- |
//! | read, write a record | [`read_record`], [`write_record`] |
//! | check a set, its totals | [`check_set`], [`totals`] |
//! | weights of one axis | [`weights`] |
//! | particle-to-grid transfer, node update, grid-to-particle transfer | [`scatter`], [`update`], [`gather`] |
//! | particle-to-grid transfer onto what a grid holds | [`adding_scatter`] |
//! | step, run | [`step`], [`run`] |
//! | read a file, write its header | [`read_file`], [`write_header`] |
//! | keep a bath under a name, return to it, forget it | [`keep`], [`return_to`], [`forget`] |
//!
//! These are the bench's. [`page`] has those of them that check a size, a set or a file with the smaller limits
//! of the lesson page.
//!
//! [`affine_flow`] says whether a bath file is a flow that a step gives back exactly. It is written in Rust,
//! over [`read_file`] and [`read_record`], and not proved.
//!
//! `include/gondwize.h` has a table of the stack that each call needs, by the number of its particles.
//! Where a thread has less, the process ends, as with any function that overflows its stack.

#![deny(unsafe_code)]
#![warn(missing_docs)]

#[allow(unsafe_code)]
pub mod ffi;
mod flow;
#[allow(unsafe_code)]
pub mod library;
pub mod page;
mod refusal;

use library::{Library, PROVED};

pub use flow::{affine_flow, Flow, NoFlow};
pub use refusal::{Limit, Refusal};

/// Length of a particle record in bytes.
pub const RECORD_LENGTH: usize = 15;

/// Length of a bath file's header in bytes.
pub const HEADER_LENGTH: usize = 11;

/// Length of the longest bath file in bytes, of 4,096 records; no shorter buffer is returned into.
pub const MOST_FILE_LENGTH: usize = HEADER_LENGTH + RECORD_LENGTH * 4096;

/// Most letters of a name, and its length in a store in bytes.
pub const NAME_LENGTH: usize = 8;

/// Number of places of a store, each for one bath.
pub const STORE_PLACES: usize = 4;

/// Length of a place of a store in bytes: a name and the longest bath file.
pub const STORE_PLACE_LENGTH: usize = NAME_LENGTH + MOST_FILE_LENGTH;

/// Length of a store in bytes.
pub const STORE_LENGTH: usize = STORE_PLACES * STORE_PLACE_LENGTH;

/// One particle. Numbers are as wide as those of the C functions, so that nothing is cut on the way in:
/// a number that the record's field does not hold is refused.
#[derive(Clone, Copy, Debug, Default, PartialEq, Eq, Hash)]
pub struct Particle {
    /// Identifier.
    pub identifier: u16,
    /// Mass, 1 to 1023.
    pub mass: u64,
    /// Place on the x axis, nodes 64 apart; at most 4095 in a record.
    pub x: u64,
    /// Place on the y axis.
    pub y: u64,
    /// Velocity on the x axis, −63 to 63.
    pub vx: i64,
    /// Velocity on the y axis.
    pub vy: i64,
    /// Affine state B, velocity axis x, offset axis x; each entry −2047 to 2047.
    pub bxx: i64,
    /// B, velocity axis x, offset axis y.
    pub bxy: i64,
    /// B, velocity axis y, offset axis x.
    pub byx: i64,
    /// B, velocity axis y, offset axis y.
    pub byy: i64,
    /// Count of marks, any number of 8 bits. Marks travel with their record: no function but
    /// [`write_record`] changes them.
    pub marks: u8,
}

/// Number of nodes along each axis, 4 to 48; for the lesson page to [`page::MOST_NODES`].
#[derive(Clone, Copy, Debug, PartialEq, Eq, Hash)]
pub struct Size {
    /// Nodes along the x axis.
    pub nx: usize,
    /// Nodes along the y axis.
    pub ny: usize,
}

/// The edge of the grid: open, or with a band of the outermost columns and rows, 1 to 3 nodes wide.
#[derive(Clone, Copy, Debug, PartialEq, Eq, Hash)]
pub enum Edge {
    /// No band.
    Open,
    /// Nodes in a band of this width rest.
    Sticky(usize),
    /// Nodes in the columns of a band of this width rest on the x axis, those in its rows on the y
    /// axis.
    Slip(usize),
    /// An edge by its numbers, as a file and C have them: kind 0 is open, with width 0; 1 is sticky
    /// and 2 slip, with width 1 to 3. Others are refused with 18.
    Numbered {
        /// The number of its kind.
        kind: usize,
        /// The width of its band.
        width: usize,
    },
}

impl Edge {
    /// The number of its kind.
    #[must_use]
    pub fn kind(self) -> usize {
        match self {
            Edge::Open => 0,
            Edge::Sticky(_) => 1,
            Edge::Slip(_) => 2,
            Edge::Numbered { kind, .. } => kind,
        }
    }

    /// The width of its band, 0 where it is open.
    #[must_use]
    pub fn width(self) -> usize {
        match self {
            Edge::Open => 0,
            Edge::Sticky(width) | Edge::Slip(width) | Edge::Numbered { width, .. } => width,
        }
    }

    /// The edge of an accepted file, by its numbers.
    fn of_file(kind: i64, width: i64) -> Self {
        match kind {
            0 => Edge::Open,
            1 => Edge::Sticky(field(width)),
            2 => Edge::Slip(field(width)),
            _ => panic!("no kind of edge: {kind}"),
        }
    }
}

/// What a step is given beside records and grids.
#[derive(Clone, Copy, Debug, PartialEq, Eq, Hash)]
pub struct Settings {
    /// Nodes along each axis.
    pub size: Size,
    /// Gravity on the x axis in 256ths of a velocity unit per step, −4096 to 4096.
    pub gx: i64,
    /// Gravity on the y axis.
    pub gy: i64,
    /// The edge of the grid.
    pub edge: Edge,
    /// What a node's velocity loses at each step, in 256ths of it; at most 255.
    pub drag: usize,
}

/// The caller's grid buffers, Nx·Ny long each. Node (i, j) has index j·Nx + i.
#[derive(Debug, PartialEq, Eq)]
pub struct GridBuffers<'a> {
    /// Mass of each node.
    pub mass: &'a mut [u64],
    /// Momentum of each node on the x axis after a scatter; velocity in 256ths after an update.
    pub x: &'a mut [i64],
    /// The same on the y axis.
    pub y: &'a mut [i64],
}

/// The sums over a particle set.
#[derive(Clone, Copy, Debug, PartialEq, Eq, Hash)]
pub struct Totals {
    /// Sum of m.
    pub mass: i64,
    /// Sum of m·vx.
    pub px: i64,
    /// Sum of m·vy.
    pub py: i64,
    /// Angular momentum about node (0, 0), affine part included: sum of m·(x·vy − y·vx + Byx − Bxy).
    pub angular_momentum: i64,
    /// Sum of m·(1024·(vx² + vy²) + Bxx² + Bxy² + Byx² + Byy²): 0 exactly where every velocity and
    /// every entry of B is, and always below 2^42.
    pub motion: i64,
    /// Sum of marks.
    pub marks: i64,
}

/// The values of a bath file's header, as wide as [`Settings`] has them.
#[derive(Clone, Copy, Debug, PartialEq, Eq, Hash)]
pub struct Header {
    /// Nodes along each axis.
    pub size: Size,
    /// Gravity on the x axis.
    pub gx: i64,
    /// Gravity on the y axis.
    pub gy: i64,
    /// Number of records, at most 4096; for the lesson page [`page::MOST_RECORDS`].
    pub count: usize,
    /// Number of steps wanted, at most 10,000.
    pub steps: usize,
    /// The edge of the grid.
    pub edge: Edge,
    /// Drag, at most 255.
    pub drag: usize,
}

impl Header {
    /// The settings of a run of this file.
    #[must_use]
    pub fn settings(&self) -> Settings {
        Settings {
            size: self.size,
            gx: self.gx,
            gy: self.gy,
            edge: self.edge,
            drag: self.drag,
        }
    }
}

/// The answer of a run. The compiler warns where it is dropped unseen:
///
/// ```compile_fail
/// # #![deny(unused_must_use)]
/// # use engine::{run, Edge, GridBuffers, Settings, Size};
/// # let settings = Settings { size: Size { nx: 4, ny: 5 }, gx: 0, gy: 0, edge: Edge::Open, drag: 0 };
/// # let mut records = [0; 0];
/// # let (mut mass, mut x, mut y) = ([0; 20], [0; 20], [0; 20]);
/// # let mut grid = GridBuffers { mass: &mut mass, x: &mut x, y: &mut y };
/// run(settings, 1, &mut records, &mut grid);
/// ```
#[must_use = "a run can be refused, or stop before its last step"]
#[derive(Clone, Copy, Debug, PartialEq, Eq, Hash)]
pub struct RunAnswer {
    /// Number of completed steps.
    pub completed: usize,
    /// What stopped the run, at entry or at the next step.
    pub refusal: Option<Refusal>,
}

/// A value of a result in its field's type, which the engine's contracts keep it within.
fn field<T: TryFrom<i64>>(value: i64) -> T {
    T::try_from(value).ok().expect("a value within its field")
}

/// The number of a set's records, by either caller's library.
fn count_by(library: &Library, size: Size, records: &[u8]) -> Result<usize, Refusal> {
    let mut count = 0;
    Refusal::check(library.check_set(size, records, &mut count))?;
    Ok(count as usize)
}

/// A set's totals, by either caller's library.
fn totals_by(library: &Library, size: Size, records: &[u8]) -> Result<Totals, Refusal> {
    let mut values = [0; 6];
    Refusal::check(library.totals(size, records, &mut values))?;
    let [mass, px, py, angular_momentum, motion, marks] = values;
    Ok(Totals {
        mass,
        px,
        py,
        angular_momentum,
        motion,
        marks,
    })
}

/// A run, by either caller's library.
fn run_by(
    library: &Library,
    settings: Settings,
    steps: usize,
    records: &mut [u8],
    grid: &mut GridBuffers,
) -> RunAnswer {
    let mut completed = 0;
    let code = library.run(settings, steps, records, grid, &mut completed);
    RunAnswer {
        completed: completed as usize,
        refusal: Refusal::from_code(code),
    }
}

/// The values of a file's header, by either caller's library.
fn header_by(library: &Library, bytes: &[u8]) -> Result<Header, Refusal> {
    let mut values = [0; 9];
    Refusal::check(library.read_file(bytes, &mut values))?;
    let [nx, ny, gx, gy, count, steps, kind, width, drag] = values;
    Ok(Header {
        size: Size {
            nx: field(nx),
            ny: field(ny),
        },
        gx,
        gy,
        count: field(count),
        steps: field(steps),
        edge: Edge::of_file(kind, width),
        drag: field(drag),
    })
}

/// Reads a record.
///
/// ```
/// let record = [0x00, 0x07, 0x00, 0x81, 0x00, 0x10, 0x01, 0xFE, 0, 0, 0, 0, 0, 0, 9];
/// let p = engine::read_record(&record)?;
/// assert_eq!((p.identifier, p.mass, p.x, p.y, p.vx, p.vy), (7, 2, 64, 64, 3, -2));
/// assert_eq!((p.bxx, p.bxy, p.byx, p.byy, p.marks), (0, 0, 0, 0, 9));
/// # Ok::<(), engine::Refusal>(())
/// ```
///
/// # Errors
///
/// 1 length not 15; 4 mass zero; 5 a velocity of −64; 6 a B entry of −2048.
pub fn read_record(bytes: &[u8]) -> Result<Particle, Refusal> {
    let mut values = [0; 11];
    Refusal::check(PROVED.read_record(bytes, &mut values))?;
    let [identifier, mass, x, y, vx, vy, bxx, bxy, byx, byy, marks] = values;
    Ok(Particle {
        identifier: field(identifier),
        mass: field(mass),
        x: field(x),
        y: field(y),
        vx,
        vy,
        bxx,
        bxy,
        byx,
        byy,
        marks: field(marks),
    })
}

/// Writes a record into the buffer.
///
/// ```
/// use engine::{write_record, Limit, Particle, RECORD_LENGTH};
///
/// let mut record = [0; RECORD_LENGTH];
/// let particle = Particle { identifier: 7, mass: 65_537, x: 64, y: 64, ..Particle::default() };
/// let refusal = write_record(&particle, &mut record).expect_err("a mass above 1023");
/// assert_eq!(refusal.limit, Limit::Mass);
/// write_record(&Particle { mass: 1, ..particle }, &mut record)?;
/// # Ok::<(), engine::Refusal>(())
/// ```
///
/// # Errors
///
/// 1 length not 15; 4 mass not 1 to 1023; 5 a velocity out of range; 6 a B entry out of range; 7 x or
/// y above 4095.
pub fn write_record(particle: &Particle, bytes: &mut [u8]) -> Result<(), Refusal> {
    Refusal::check(PROVED.write_record(particle, bytes))
}

/// Checks a set: the number of its records.
///
/// ```
/// use engine::{check_set, write_record, Limit, Particle, Size, RECORD_LENGTH};
///
/// let particle = Particle { identifier: 7, mass: 1, x: 64, y: 64, ..Particle::default() };
/// let mut set = [0; 2 * RECORD_LENGTH];
/// let (first, second) = set.split_at_mut(RECORD_LENGTH);
/// write_record(&particle, first)?;
/// write_record(&particle, second)?;
/// let refusal = check_set(Size { nx: 4, ny: 4 }, &set).expect_err("the same identifier twice");
/// assert_eq!((refusal.limit, refusal.place), (Limit::Identifier, 1));
/// # Ok::<(), engine::Refusal>(())
/// ```
///
/// # Errors
///
/// 2; 1 length not a multiple of 15 or above 61,440; then for each record 4, 5, 6, 7 off the grid, 8,
/// 9.
pub fn check_set(size: Size, records: &[u8]) -> Result<usize, Refusal> {
    count_by(&PROVED, size, records)
}

/// Totals of a set.
///
/// ```
/// use engine::{totals, write_record, Particle, Size, RECORD_LENGTH};
///
/// let particle = Particle { identifier: 7, mass: 2, x: 64, y: 90, marks: 200, ..Particle::default() };
/// let mut set = [0; 2 * RECORD_LENGTH];
/// let (first, second) = set.split_at_mut(RECORD_LENGTH);
/// write_record(&particle, first)?;
/// write_record(&Particle { identifier: 9, vx: 3, marks: 61, ..particle }, second)?;
/// let totals = totals(Size { nx: 4, ny: 5 }, &set)?;
/// assert_eq!((totals.mass, totals.px, totals.py), (4, 6, 0));
/// assert_eq!((totals.angular_momentum, totals.motion, totals.marks), (-540, 18_432, 261));
/// # Ok::<(), engine::Refusal>(())
/// ```
///
/// # Errors
///
/// As [`check_set`].
pub fn totals(size: Size, records: &[u8]) -> Result<Totals, Refusal> {
    totals_by(&PROVED, size, records)
}

/// The weights of the lower, the nearest and the upper node of one axis for a particle at offset q
/// from its nearest node. They total 8192.
///
/// ```
/// assert_eq!(engine::weights(-32), Ok([4096, 4096, 0]));
/// ```
///
/// # Errors
///
/// 7 offset outside −32 to 31.
pub fn weights(q: i64) -> Result<[u16; 3], Refusal> {
    let mut values = [0; 3];
    Refusal::check(PROVED.weights(q, &mut values))?;
    Ok(values.map(field))
}

/// Particle-to-grid transfer: the grid then holds node masses and momenta of the set, whatever it
/// held.
///
/// # Errors
///
/// 2; 1, also where a grid buffer is not Nx·Ny long; then the set.
pub fn scatter(size: Size, records: &[u8], grid: &mut GridBuffers) -> Result<(), Refusal> {
    Refusal::check(PROVED.scatter(size, records, grid))
}

/// Particle-to-grid transfer onto what the grid holds: the set's node masses and momenta are added to
/// those that are there.
///
/// On a grid of zeros it does what [`scatter`] does. Parts of an accepted set that together have each
/// record once, each part in the set's order, give the set's grid when they are added to a grid of zeros,
/// in any order, and none of them is refused. An [`update`] of what this leaves is not refused with 11 or
/// 12.
///
/// ```
/// use engine::{adding_scatter, scatter, write_record, GridBuffers, Limit, Particle, Size};
///
/// let mut records = [0; 2 * engine::RECORD_LENGTH];
/// let (first, second) = records.split_at_mut(engine::RECORD_LENGTH);
/// let particle = Particle { identifier: 7, mass: 2, x: 64, y: 64, vx: 3, ..Particle::default() };
/// write_record(&particle, first)?;
/// write_record(&Particle { identifier: 9, x: 100, vy: -5, ..particle }, second)?;
///
/// let size = Size { nx: 5, ny: 4 };
/// let (mut mass, mut x, mut y) = ([0; 20], [0; 20], [0; 20]);
/// let mut grid = GridBuffers { mass: &mut mass, x: &mut x, y: &mut y };
/// adding_scatter(size, second, &mut grid)?;
/// adding_scatter(size, first, &mut grid)?;
/// let added = (mass, x, y);
/// let mut grid = GridBuffers { mass: &mut mass, x: &mut x, y: &mut y };
/// scatter(size, &records, &mut grid)?;
/// assert_eq!(added, (mass, x, y));
///
/// mass[6] = 1 << 43;
/// let mut grid = GridBuffers { mass: &mut mass, x: &mut x, y: &mut y };
/// let refusal = adding_scatter(size, &records, &mut grid).expect_err("a mass above 2^43");
/// assert_eq!((refusal.limit, refusal.place), (Limit::AddedMass, 6));
/// # Ok::<(), engine::Refusal>(())
/// ```
///
/// # Errors
///
/// 2; 1, also for the grid buffers; the set; then for each node 20 where its mass is above 2^43 or a
/// momentum in size above 457,536 times its mass, and 21 where its mass would pass 2^43.
pub fn adding_scatter(size: Size, records: &[u8], grid: &mut GridBuffers) -> Result<(), Refusal> {
    Refusal::check(PROVED.adding_scatter(size, records, grid))
}

/// Node update: velocities in 256ths take the place of momenta; masses stay. Momentum by mass, rounded,
/// gains gravity; the velocity u then loses u·drag/256, rounded; then nodes in the edge's band rest, on
/// both axes or on one. Refusal 12 looks at the velocity after gravity and before drag. Rounding, here
/// and in [`gather`], is to nearest, a half to the even neighbour.
///
/// ```
/// use engine::{update, Edge, GridBuffers, Settings, Size};
///
/// let settings =
///     Settings { size: Size { nx: 5, ny: 4 }, gx: 20, gy: -5, edge: Edge::Slip(1), drag: 128 };
/// let (mut mass, mut x, mut y) = ([1; 20], [400; 20], [0; 20]);
/// update(settings, &mut GridBuffers { mass: &mut mass, x: &mut x, y: &mut y })?;
/// // 400 by 4 and gravity are 120 on the x axis, of which half is lost; of −5 it is −2.5, rounded −2.
/// assert_eq!(x[..10], [0, 60, 60, 60, 0, 0, 60, 60, 60, 0]);
/// assert_eq!(y[..10], [0, 0, 0, 0, 0, -3, -3, -3, -3, -3]);
/// # Ok::<(), engine::Refusal>(())
/// ```
///
/// # Errors
///
/// 2; 1 for the grid buffers; 10; 18; 19; then for each node 11, 12.
pub fn update(settings: Settings, grid: &mut GridBuffers) -> Result<(), Refusal> {
    Refusal::check(PROVED.update(settings, grid))
}

/// Grid-to-particle transfer from node velocities: the records then hold the moved particles, their
/// velocities and B rounded.
///
/// # Errors
///
/// 2; 1, also for the velocity buffers; the set; 12 for each node; then for each record 13, 14, 15.
/// No record moves if any is refused.
pub fn gather(size: Size, records: &mut [u8], x: &[i64], y: &[i64]) -> Result<(), Refusal> {
    Refusal::check(PROVED.gather(size, records, x, y))
}

/// One step: [`scatter`], [`update`], [`gather`].
///
/// ```
/// use engine::{gather, scatter, step, update, write_record};
/// use engine::{Edge, GridBuffers, Particle, Settings, Size};
///
/// let particle = Particle { identifier: 1, mass: 1, x: 64, y: 64, ..Particle::default() };
/// let mut records = [0; engine::RECORD_LENGTH];
/// write_record(&particle, &mut records)?;
/// let mut same = records;
///
/// let size = Size { nx: 4, ny: 5 };
/// let settings = Settings { size, gx: 384, gy: -128, edge: Edge::Open, drag: 0 };
/// let (mut mass, mut x, mut y) = ([0; 20], [0; 20], [0; 20]);
/// let mut grid = GridBuffers { mass: &mut mass, x: &mut x, y: &mut y };
/// step(settings, &mut records, &mut grid)?;
///
/// scatter(size, &same, &mut grid)?;
/// update(settings, &mut grid)?;
/// gather(size, &mut same, grid.x, grid.y)?;
/// assert_eq!(records, same);
/// // 384 and −128 of 256ths are 3/2 and −1/2.
/// let particle = engine::read_record(&records)?;
/// assert_eq!((particle.vx, particle.vy), (2, 0));
/// # Ok::<(), engine::Refusal>(())
/// ```
///
/// # Errors
///
/// 2; 1, also for the grid buffers; 10; 18; 19; the set. Then for each record 13, 14, 15: the records
/// are as they were, and the grid holds masses and updated velocities.
pub fn step(settings: Settings, records: &mut [u8], grid: &mut GridBuffers) -> Result<(), Refusal> {
    Refusal::check(PROVED.step(settings, records, grid))
}

/// The step repeated, as often as wanted or until one is refused.
///
/// The refusal is one of 2; 1, also for the grid buffers; 10; 18; 19; 17; the set, and nothing has
/// changed; or 13, 14, 15 of the step that stopped the run. Then the records are those of the last
/// completed step, and the grid holds masses and updated velocities of the last step tried. A run of 0
/// steps touches nothing.
///
/// ```
/// use engine::{read_record, run, write_record, Edge, GridBuffers, Limit, Particle, Settings, Size};
///
/// let particle = Particle { identifier: 7, mass: 2, x: 214, y: 192, vx: 20, ..Particle::default() };
/// let mut records = [0; engine::RECORD_LENGTH];
/// write_record(&particle, &mut records)?;
/// let mut held = records;
///
/// let open = Settings { size: Size { nx: 6, ny: 7 }, gx: 0, gy: 0, edge: Edge::Open, drag: 0 };
/// let (mut mass, mut x, mut y) = ([0; 42], [0; 42], [0; 42]);
/// let mut grid = GridBuffers { mass: &mut mass, x: &mut x, y: &mut y };
/// let answer = run(open, 1000, &mut records, &mut grid);
/// let refusal = answer.refusal.expect("the particle leaves the grid");
/// assert_eq!((answer.completed, refusal.limit), (3, Limit::NewPosition));
/// assert_eq!(read_record(&records)?.x, 274);
///
/// let sticky = Settings { edge: Edge::Sticky(2), ..open };
/// let answer = run(sticky, 1000, &mut held, &mut grid);
/// assert_eq!((answer.completed, answer.refusal), (1000, None));
/// assert_eq!(read_record(&held)?.x, 260);
/// # Ok::<(), engine::Refusal>(())
/// ```
pub fn run(
    settings: Settings,
    steps: usize,
    records: &mut [u8],
    grid: &mut GridBuffers,
) -> RunAnswer {
    run_by(&PROVED, settings, steps, records, grid)
}

/// Reads a bath file: the header's values. The records lie from byte 11 on. The edge is one of the first
/// three of [`Edge`].
///
/// ```
/// use engine::{read_file, Edge};
///
/// let file = [0x20, 0x60, 0x03, 0x3F, 0x00, 0x00, 0x00, 0x01, 0x40, 0x60, 0x90];
/// let header = read_file(&file)?;
/// assert_eq!((header.size.nx, header.size.ny), (8, 6));
/// assert_eq!((header.gx, header.gy), (12, -256));
/// assert_eq!((header.count, header.steps), (0, 10));
/// assert_eq!((header.edge, header.drag), (Edge::Sticky(2), 9));
/// # Ok::<(), engine::Refusal>(())
/// ```
///
/// # Errors
///
/// 1 shorter than 11; 2; 10; 18; 3; 17; 16; 1 length not 11 + 15·count; then the set.
pub fn read_file(bytes: &[u8]) -> Result<Header, Refusal> {
    header_by(&PROVED, bytes)
}

/// Writes a bath file's header into the buffer, spare bits zero.
///
/// ```
/// use engine::{read_file, write_header, Edge, Header, Limit, Size, HEADER_LENGTH};
///
/// let size = Size { nx: 8, ny: 6 };
/// let header = Header { size, gx: 12, gy: -256, count: 0, steps: 10, edge: Edge::Slip(3), drag: 9 };
/// let mut file = [0; HEADER_LENGTH];
/// write_header(&header, &mut file)?;
/// assert_eq!(read_file(&file), Ok(header));
///
/// let wide = Header { edge: Edge::Numbered { kind: 0, width: 1 }, ..header };
/// let refusal = write_header(&wide, &mut file).expect_err("an open edge with a width");
/// assert_eq!(refusal.limit, Limit::Edge);
/// # Ok::<(), engine::Refusal>(())
/// ```
///
/// # Errors
///
/// 1 length not 11; 2; 10; 18; 19; 3; 17.
pub fn write_header(header: &Header, bytes: &mut [u8]) -> Result<(), Refusal> {
    Refusal::check(PROVED.write_header(header, bytes))
}

/// Keeps a bath file in a store under a name, in place of the one that is kept under it.
///
/// A name is 1 to 8 letters A to Z. A store is [`STORE_LENGTH`] bytes, all zero where it is empty:
/// [`STORE_PLACES`] places one after the other, each free and zero, or with a name, zeros after it to
/// [`NAME_LENGTH`] bytes, a file that [`read_file`] accepts, and zeros to the place's end. No name stands
/// in two places. A call on such a store leaves it so. A name that is not held yet takes the lowest place
/// that is free; the baths under other names stay as they are.
///
/// ```
/// use engine::{forget, keep, return_to, Limit, MOST_FILE_LENGTH, STORE_LENGTH};
///
/// let start = [0x20, 0x60, 0x03, 0x3F, 0x00, 0x00, 0x00, 0x01, 0x40, 0x60, 0x90];
/// let mut store = vec![0; STORE_LENGTH];
/// keep(&mut store, b"START", &start)?;
///
/// let mut buffer = vec![0; MOST_FILE_LENGTH];
/// let length = return_to(&store, b"START", &mut buffer)?;
/// assert_eq!(buffer[..length], start);
///
/// forget(&mut store, b"START")?;
/// let refusal = return_to(&store, b"START", &mut buffer).expect_err("a name that was forgotten");
/// assert_eq!(refusal.limit, Limit::NotHeld);
/// # Ok::<(), engine::Refusal>(())
/// ```
///
/// # Errors
///
/// 1 a store of another length or form; 22; as [`read_file`]; 24 where four other names are held.
pub fn keep(store: &mut [u8], name: &[u8], file: &[u8]) -> Result<(), Refusal> {
    Refusal::check(PROVED.keep(store, name, file))
}

/// Returns to the bath that is kept under a name: its file stands at the front of the buffer, whose rest
/// stays as it is, and its length is the result.
///
/// # Errors
///
/// 1 a store of another length or form; 1 a buffer shorter than [`MOST_FILE_LENGTH`]; 22; 23.
pub fn return_to(store: &[u8], name: &[u8], buffer: &mut [u8]) -> Result<usize, Refusal> {
    let mut length = 0;
    Refusal::check(PROVED.return_to(store, name, buffer, &mut length))?;
    Ok(length as usize)
}

/// Forgets the bath that is kept under a name: its place is free, every byte of it zero.
///
/// # Errors
///
/// 1 a store of another length or form; 22; 23.
pub fn forget(store: &mut [u8], name: &[u8]) -> Result<(), Refusal> {
    Refusal::check(PROVED.forget(store, name))
}
