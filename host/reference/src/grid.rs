//! The grid: its size, its settings and its buffers.

use crate::caller::Limits;
use crate::edge::Edge;
use crate::limits::{MAX_DRAG, MAX_GRAVITY, MIN_NODES, MIN_PLACE, SPACING};
use crate::refusal::{require, within, Refusal, DRAG, GRAVITY, LENGTH, SIZE};

/// Number of nodes along each axis.
#[derive(Clone, Copy, Debug, PartialEq, Eq, Hash)]
pub struct Size {
    /// Nodes along the x axis, 4 to as many as the caller's limits say.
    pub nx: i128,
    /// Nodes along the y axis, in the same range.
    pub ny: i128,
}

impl Size {
    /// A size of nx by ny nodes.
    pub fn new(nx: i128, ny: i128) -> Self {
        Size { nx, ny }
    }

    /// Refuses 2.
    pub fn check(&self, limits: Limits) -> Result<(), Refusal> {
        let accepted = |nodes: i128| (MIN_NODES..=limits.nodes).contains(&nodes);
        require(accepted(self.nx) && accepted(self.ny), SIZE, 0)
    }

    /// Number of nodes of an accepted size.
    pub fn nodes(&self) -> usize {
        (self.nx * self.ny) as usize
    }

    /// The index of node (i, j).
    pub fn index(&self, i: i128, j: i128) -> usize {
        (j * self.nx + i) as usize
    }

    /// The column and the row of the node with this index.
    pub fn column_and_row(&self, node: usize) -> (i128, i128) {
        (node as i128 % self.nx, node as i128 / self.nx)
    }

    /// Whether a particle at (x, y) is on the grid.
    pub fn holds(&self, x: i128, y: i128) -> bool {
        let on_axis = |coordinate: i128, nodes: i128| {
            MIN_PLACE <= coordinate && coordinate <= SPACING * (nodes - 1) - 33
        };
        on_axis(x, self.nx) && on_axis(y, self.ny)
    }
}

/// What a step is given beside records and buffers: the size, gravity, the edge and drag.
#[derive(Clone, Copy, Debug, PartialEq, Eq, Hash)]
pub struct Settings {
    /// Nodes along each axis.
    pub size: Size,
    /// Gravity on the x axis, in 256ths, −4096 to 4096.
    pub gx: i128,
    /// Gravity on the y axis.
    pub gy: i128,
    /// The kind of edge and the width of its band.
    pub edge: Edge,
    /// Drag, in 256ths of a node's velocity, 0 to 255.
    pub drag: i128,
}

impl Settings {
    /// Settings with gravity (gx, gy), open edges and no drag.
    pub fn new(size: Size, gx: i128, gy: i128) -> Self {
        Settings {
            size,
            gx,
            gy,
            edge: Edge::OPEN,
            drag: 0,
        }
    }

    /// The same settings with this edge.
    pub fn with_edge(self, edge: Edge) -> Self {
        Settings { edge, ..self }
    }

    /// The same settings with this drag.
    pub fn with_drag(self, drag: i128) -> Self {
        Settings { drag, ..self }
    }

    /// Refuses 10, 18 and 19 in this order: what changes the velocities of nodes.
    pub(crate) fn check_forcing(&self) -> Result<(), Refusal> {
        let accepted = within(self.gx, MAX_GRAVITY) && within(self.gy, MAX_GRAVITY);
        require(accepted, GRAVITY, 0)?;
        self.edge.check()?;
        require((0..=MAX_DRAG).contains(&self.drag), DRAG, 0)
    }
}

/// The caller's grid buffers: node masses, and node momenta or velocities per axis.
#[derive(Debug, PartialEq, Eq)]
pub struct GridBuffers<'a> {
    /// Mass of each node.
    pub mass: &'a mut [u64],
    /// Momentum of each node on the x axis after a scatter; velocity after an update.
    pub x: &'a mut [i64],
    /// The same on the y axis.
    pub y: &'a mut [i64],
}

impl GridBuffers<'_> {
    /// The lengths of the buffers.
    pub(crate) fn lengths(&self) -> [usize; 3] {
        [self.mass.len(), self.x.len(), self.y.len()]
    }
}

/// Refuses 1 where one of the lengths is not Nx·Ny.
pub(crate) fn check_node_buffers(size: Size, lengths: &[usize]) -> Result<(), Refusal> {
    let accepted = lengths.iter().all(|&length| length == size.nodes());
    require(accepted, LENGTH, 0)
}

/// Grid buffers of one's own, of any lengths.
#[derive(Clone, Debug, PartialEq, Eq, Hash)]
pub struct Grid {
    /// Mass of each node.
    pub mass: Vec<u64>,
    /// Momentum or velocity of each node on the x axis.
    pub x: Vec<i64>,
    /// The same on the y axis.
    pub y: Vec<i64>,
}

impl Grid {
    /// Buffers of this many nodes, all zero.
    pub fn zero(nodes: usize) -> Self {
        Grid::filled(nodes, 0, 0, 0)
    }

    /// Buffers of this many nodes that all hold the same mass and momenta.
    pub fn filled(nodes: usize, mass: u64, x: i64, y: i64) -> Self {
        Grid {
            mass: vec![mass; nodes],
            x: vec![x; nodes],
            y: vec![y; nodes],
        }
    }

    /// The buffers as slices, to hand to an operation.
    pub fn buffers(&mut self) -> GridBuffers<'_> {
        GridBuffers {
            mass: &mut self.mass,
            x: &mut self.x,
            y: &mut self.y,
        }
    }
}
