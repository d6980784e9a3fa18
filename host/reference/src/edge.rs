//! The edge of the grid: its kind, the band of outermost columns and rows, and what nodes there get.

use crate::grid::Size;
use crate::limits::{MAX_WIDTH, MIN_WIDTH};
use crate::refusal::{require, Refusal, EDGE};

/// The kind of an edge without a band.
pub const OPEN: i128 = 0;
/// The kind of an edge whose band is at rest.
pub const STICKY: i128 = 1;
/// The kind of an edge whose band is not crossed.
pub const SLIP: i128 = 2;

/// An edge by its numbers. What is no edge can be written down; the operations refuse it.
#[derive(Clone, Copy, Debug, PartialEq, Eq, Hash)]
pub struct Edge {
    /// 0 open, 1 sticky, 2 slip.
    pub kind: i128,
    /// Width of the band in nodes: 0 for an open edge, 1 to 3 for the others.
    pub width: i128,
}

impl Edge {
    /// No band.
    pub const OPEN: Edge = Edge::new(OPEN, 0);

    /// Every edge that is accepted.
    pub const ALL: [Edge; 7] = [
        Edge::OPEN,
        Edge::sticky(1),
        Edge::sticky(2),
        Edge::sticky(3),
        Edge::slip(1),
        Edge::slip(2),
        Edge::slip(3),
    ];

    /// The edge of this kind and width, or what is none.
    pub const fn new(kind: i128, width: i128) -> Self {
        Edge { kind, width }
    }

    /// A sticky edge.
    pub const fn sticky(width: i128) -> Self {
        Edge::new(STICKY, width)
    }

    /// A slip edge.
    pub const fn slip(width: i128) -> Self {
        Edge::new(SLIP, width)
    }

    /// Refuses 18.
    pub(crate) fn check(&self) -> Result<(), Refusal> {
        let accepted = match self.kind {
            OPEN => self.width == 0,
            STICKY | SLIP => (MIN_WIDTH..=MAX_WIDTH).contains(&self.width),
            _ => false,
        };
        require(accepted, EDGE, 0)
    }

    /// Whether the column or row with this number is in the band, of so many along the axis.
    fn in_band(&self, number: i128, nodes: i128) -> bool {
        number < self.width || number >= nodes - self.width
    }

    /// What the rim makes of node (i, j)'s velocity: 0 on both axes in a sticky edge's band; 0 on x in
    /// the columns of a slip edge's band, and on y in its rows.
    pub fn rim(&self, size: Size, (i, j): (i128, i128), [x, y]: [i128; 2]) -> [i128; 2] {
        let column = self.in_band(i, size.nx);
        let row = self.in_band(j, size.ny);
        match self.kind {
            STICKY if column || row => [0, 0],
            SLIP => [if column { 0 } else { x }, if row { 0 } else { y }],
            _ => [x, y],
        }
    }
}
