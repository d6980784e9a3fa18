//! Demand 3 in whole numbers: what a list of calls keeps, and its sums, which are multiplied by 2^35.
//! What drag and rim change at the nodes is counted with gravity.

use crate::edge::Edge;
use crate::grid::{Grid, Settings, Size};
use crate::limits::SPACING;
use crate::particle::Particle;
use crate::particle_set::{pack_records, Totals};
use crate::transfer::{scatter_by, update, Sums};

/// What demand 3's numbers are multiplied by.
const UNIT: i128 = 1 << 35;
/// 256ths in this unit.
const GRAVITY_UNIT: i128 = UNIT >> 8;
/// Node changes, in 256ths times a node mass over 2^34, in this unit.
const NODE_UNIT: i128 = UNIT >> 34;
/// 257/512 in this unit.
const ROUNDING: i128 = 257 * (UNIT >> 9);

/// What drag and rim give to the nodes of one step, multiplied by 2^34.
#[derive(Clone, Copy, Debug, Default, PartialEq, Eq)]
pub struct NodeChanges {
    /// Sum of M·c, on each axis: the node's mass times the change of its velocity.
    pub momentum: [i128; 2],
    /// Sum of M·(X·cy − Y·cx), with the node at (X, Y).
    pub torque: i128,
}

impl NodeChanges {
    /// The changes from the velocities after gravity to those that an update leaves.
    pub fn between(size: Size, after_gravity: &Grid, updated: &Grid) -> Self {
        let mut changes = NodeChanges::default();
        for node in 0..size.nodes() {
            let (i, j) = size.column_and_row(node);
            let mass = i128::from(updated.mass[node]);
            let change = |after: &[i64], before: &[i64]| i128::from(after[node] - before[node]);
            let cx = change(&updated.x, &after_gravity.x);
            let cy = change(&updated.y, &after_gravity.y);
            changes.momentum[0] += mass * cx;
            changes.momentum[1] += mass * cy;
            changes.torque += mass * (SPACING * i * cy - SPACING * j * cx);
        }
        changes
    }

    /// The changes in a step of these particles, which the settings accept.
    pub fn of_step(before: &[Particle], settings: Settings) -> Self {
        let size = settings.size;
        let mut scattered = Grid::zero(size.nodes());
        let records = pack_records(before);
        scatter_by(Sums::Nearby, size, &records, &mut scattered.buffers())
            .expect("particles of a completed step");
        let updated = |settings: Settings| {
            let mut grid = scattered.clone();
            update(settings, &mut grid.buffers()).expect("a scattered set can be updated");
            grid
        };
        let without = settings.with_edge(Edge::OPEN).with_drag(0);
        NodeChanges::between(size, &updated(without), &updated(settings))
    }
}

/// The start of a list of calls and the completed steps so far.
#[derive(Clone, Debug)]
pub struct Ledger {
    /// Identifiers, masses and marks at the start, in order.
    kept: Vec<(u16, i128, u8)>,
    start: Totals,
    /// Number of completed steps.
    pub completed: i128,
    /// Shares of momentum of gravity, drag and rim.
    shares: [i128; 2],
    /// Their torques.
    torques: i128,
    /// Sum over the completed steps of the sum of m·(x + y) before the step.
    places: i128,
}

/// Identifiers, masses and marks in order.
fn kept(particles: &[Particle]) -> Vec<(u16, i128, u8)> {
    let kept = particles.iter().map(|p| (p.identifier, p.mass, p.marks));
    kept.collect()
}

impl Ledger {
    /// A list of calls that starts from these particles.
    pub fn new(start: &[Particle]) -> Self {
        Ledger {
            kept: kept(start),
            start: Totals::of(start),
            completed: 0,
            shares: [0, 0],
            torques: 0,
            places: 0,
        }
    }

    /// Counts one completed step, given the particles before it, its call's settings and what drag and
    /// rim changed.
    pub fn count_step(&mut self, before: &[Particle], settings: Settings, changes: NodeChanges) {
        let Settings { gx, gy, .. } = settings;
        self.completed += 1;
        for (axis, g) in [gx, gy].into_iter().enumerate() {
            self.shares[axis] +=
                GRAVITY_UNIT * self.start.mass * g + NODE_UNIT * changes.momentum[axis];
        }
        for p in before {
            self.torques += GRAVITY_UNIT * p.mass * (p.x * gy - p.y * gx);
            self.places += p.mass * (p.x + p.y);
        }
        self.torques += NODE_UNIT * changes.torque;
    }

    /// What the particles after the list break of demand 3, if anything.
    pub fn check(&self, after: &[Particle]) -> Result<(), String> {
        if kept(after) != self.kept {
            return Err("identifiers, masses or marks changed".into());
        }
        let (start, end) = (self.start, Totals::of(after));
        let allowance = ROUNDING * self.completed * start.mass;
        let errors = [
            UNIT * (end.px - start.px) - self.shares[0],
            UNIT * (end.py - start.py) - self.shares[1],
        ];
        if errors.iter().any(|error| error.abs() > allowance) {
            return Err(format!(
                "momentum off by {errors:?}/2^35, {allowance}/2^35 allowed"
            ));
        }
        let error = UNIT * (end.angular_momentum - start.angular_momentum) - self.torques;
        let allowance = UNIT * self.completed * start.mass + ROUNDING * self.places;
        if error.abs() > allowance {
            return Err(format!(
                "angular momentum off by {error}/2^35, {allowance}/2^35 allowed"
            ));
        }
        Ok(())
    }
}
