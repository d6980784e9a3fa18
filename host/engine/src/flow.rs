//! Affine flows: bath files of which it is proved that a step which is not refused gives every particle
//! its v and B back.

use std::error::Error;
use std::fmt;

use crate::{read_file, read_record, Edge, Particle, Refusal, HEADER_LENGTH, RECORD_LENGTH};

/// An affine flow: every particle has this B, and its velocity is A + B·(its place)/1024, with A in
/// 256ths.
#[derive(Clone, Copy, Debug, Default, PartialEq, Eq, Hash)]
pub struct Flow {
    /// A on the x axis, in 256ths of a velocity unit.
    pub ax: i64,
    /// A on the y axis.
    pub ay: i64,
    /// B, velocity axis x, offset axis x.
    pub bxx: i64,
    /// B, velocity axis x, offset axis y.
    pub bxy: i64,
    /// B, velocity axis y, offset axis x.
    pub byx: i64,
    /// B, velocity axis y, offset axis y.
    pub byy: i64,
}

/// Why a bath file is no affine flow. Records are counted from 0, and the first that fails is named.
#[derive(Clone, Copy, Debug, PartialEq, Eq, Hash)]
pub enum NoFlow {
    /// The file is refused.
    Refused(Refusal),
    /// It has gravity.
    Gravity,
    /// Its edge is not open.
    Edge,
    /// It has drag.
    Drag,
    /// This record has another B than record 0.
    OtherB(usize),
    /// This record's velocity does not fit: no A of whole 256ths gives record 0's, or record 0's A does
    /// not give this one's.
    Velocity(usize),
}

impl fmt::Display for NoFlow {
    fn fmt(&self, out: &mut fmt::Formatter) -> fmt::Result {
        match self {
            NoFlow::Refused(refusal) => refusal.fmt(out),
            NoFlow::Gravity => out.write_str("gravity is not 0"),
            NoFlow::Edge => out.write_str("the edge is not open"),
            NoFlow::Drag => out.write_str("drag is not 0"),
            NoFlow::OtherB(record) => write!(out, "record {record} has another B than record 0"),
            NoFlow::Velocity(0) => out.write_str(
                "the velocity of record 0 is not A + B*place/1024 for a whole number A of 256ths",
            ),
            NoFlow::Velocity(record) => write!(
                out,
                "the velocity of record {record} is not A + B*place/1024 with the A of record 0"
            ),
        }
    }
}

impl Error for NoFlow {}

impl From<Refusal> for NoFlow {
    fn from(refusal: Refusal) -> Self {
        NoFlow::Refused(refusal)
    }
}

impl Flow {
    /// The flow of one particle, if its A is a whole number of 256ths: 4·A is
    /// 1024·v − B·place.
    fn of(p: &Particle) -> Option<Self> {
        let (x, y) = (p.x as i64, p.y as i64);
        let four_ax = 1024 * p.vx - (p.bxx * x + p.bxy * y);
        let four_ay = 1024 * p.vy - (p.byx * x + p.byy * y);
        let whole = four_ax % 4 == 0 && four_ay % 4 == 0;
        whole.then_some(Flow {
            ax: four_ax / 4,
            ay: four_ay / 4,
            bxx: p.bxx,
            bxy: p.bxy,
            byx: p.byx,
            byy: p.byy,
        })
    }

    /// Whether this is the particle's B.
    fn has_b_of(&self, p: &Particle) -> bool {
        [self.bxx, self.bxy, self.byx, self.byy] == [p.bxx, p.bxy, p.byx, p.byy]
    }
}

/// The affine flow that a bath file is, if it is one: open edges, no drag, no gravity, and one A of
/// whole 256ths and one B by which every particle's velocity is A + B·(its place)/1024 exactly. A file
/// without records is the flow of zeros.
///
/// A step of such a file that is not refused gives every particle its v and B back and moves it by its
/// v, and so does every step of a run where B is 0.
///
/// ```
/// use engine::{affine_flow, write_header, write_record, Edge, Flow, Header, NoFlow, Particle, Size};
///
/// // A turn about (200, 160): one velocity unit for 16 units of place.
/// let at = |identifier, x: u64, y: u64| Particle {
///     identifier,
///     mass: 3,
///     x,
///     y,
///     vx: (160 - y as i64) / 16,
///     vy: (x as i64 - 200) / 16,
///     bxy: -64,
///     byx: 64,
///     ..Particle::default()
/// };
/// let size = Size { nx: 7, ny: 6 };
/// let header = Header { size, gx: 0, gy: 0, count: 2, steps: 1, edge: Edge::Open, drag: 0 };
/// let mut file = [0; 11 + 2 * 15];
/// let (front, records) = file.split_at_mut(11);
/// write_header(&header, front)?;
/// write_record(&at(1, 216, 128), &mut records[..15])?;
/// write_record(&at(2, 168, 192), &mut records[15..])?;
/// let flow = Flow { ax: 2560, ay: -3200, bxy: -64, byx: 64, ..Flow::default() };
/// assert_eq!(affine_flow(&file), Ok(flow));
///
/// write_record(&Particle { vx: -1, ..at(2, 168, 192) }, &mut file[26..])?;
/// assert_eq!(affine_flow(&file), Err(NoFlow::Velocity(1)));
/// # Ok::<(), engine::Refusal>(())
/// ```
///
/// # Errors
///
/// What makes it none: a refusal of [`read_file`]; then gravity, edge, drag; then for each record B and
/// velocity.
pub fn affine_flow(file: &[u8]) -> Result<Flow, NoFlow> {
    let header = read_file(file)?;
    if (header.gx, header.gy) != (0, 0) {
        return Err(NoFlow::Gravity);
    }
    if header.edge != Edge::Open {
        return Err(NoFlow::Edge);
    }
    if header.drag != 0 {
        return Err(NoFlow::Drag);
    }
    let mut flow: Option<Flow> = None;
    for (k, record) in file[HEADER_LENGTH..]
        .chunks_exact(RECORD_LENGTH)
        .enumerate()
    {
        let particle = read_record(record)?;
        let own = Flow::of(&particle);
        match flow {
            None => flow = Some(own.ok_or(NoFlow::Velocity(k))?),
            Some(flow) if !flow.has_b_of(&particle) => return Err(NoFlow::OtherB(k)),
            Some(flow) if own != Some(flow) => return Err(NoFlow::Velocity(k)),
            Some(_) => {}
        }
    }
    Ok(flow.unwrap_or_default())
}
