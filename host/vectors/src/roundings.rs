//! What a call rounds: every number as an exact fraction, with what it is rounded to.

use reference::limits::{DRAG_UNIT, NODE_VELOCITY_UNIT, SPACING, WEIGHT_TOTAL};
use reference::particle_set::particles;
use reference::spline::axis_weight;
use reference::transfer::{gather_by, scatter_by};
use reference::{update, Edge, Grid, Particle, Settings, Size, Sums};

use crate::{Answer, Case, Operation};

/// Where a step rounds.
#[derive(Clone, Copy, Debug, PartialEq, Eq, PartialOrd, Ord)]
pub enum Place {
    /// A node's velocity before gravity, on an axis.
    NodeVelocity,
    /// What drag takes of a node's velocity, on an axis.
    Drag,
    /// A gathered velocity, on an axis.
    Velocity,
    /// An entry of a gathered B.
    Affine,
}

/// A number, `numerator / divisor`, and what it is rounded to.
#[derive(Clone, Copy, Debug, PartialEq, Eq)]
#[allow(missing_docs)]
pub struct Rounding {
    pub place: Place,
    /// The axis, or the entry of B in a record's order.
    pub entry: usize,
    pub numerator: i128,
    pub divisor: i128,
    pub nearest: i128,
}

impl Rounding {
    /// How many halves the number is, but for so much of its numerator: an odd number, or none.
    pub fn halves(&self, beside: i128) -> Option<i128> {
        let twice = 2 * (self.numerator - beside);
        let halves = twice / self.divisor;
        (halves * self.divisor == twice && halves % 2 != 0).then_some(halves)
    }
}

/// What an update of this grid, which is accepted, rounds.
fn of_update(settings: Settings, grid: &Grid) -> Vec<Rounding> {
    let updated = |drag: i128| {
        let mut grid = grid.clone();
        let settings = settings.with_edge(Edge::OPEN).with_drag(drag);
        update(settings, &mut grid.buffers()).expect("an accepted update");
        grid
    };
    let (undragged, dragged) = (updated(0), updated(settings.drag));
    let mut roundings = Vec::new();
    for node in (0..grid.mass.len()).filter(|&node| grid.mass[node] > 0) {
        let number = |buffer: &[i64]| i128::from(buffer[node]);
        for (entry, momentum, g, u, left) in [
            (0, &grid.x, settings.gx, &undragged.x, &dragged.x),
            (1, &grid.y, settings.gy, &undragged.y, &dragged.y),
        ] {
            let (u, left) = (number(u), number(left));
            roundings.push(Rounding {
                place: Place::NodeVelocity,
                entry,
                numerator: number(momentum),
                divisor: 4 * i128::from(grid.mass[node]),
                nearest: u - g,
            });
            roundings.push(Rounding {
                place: Place::Drag,
                entry,
                numerator: u * settings.drag,
                divisor: DRAG_UNIT,
                nearest: u - left,
            });
        }
    }
    roundings
}

/// What a particle gathers on one axis: the sums over all nodes of w·u, w·u·dx and w·u·dy.
pub fn gathered_sums(size: Size, particle: &Particle, velocities: &[i64]) -> [i128; 3] {
    let mut sums = [0; 3];
    for (node, &u) in velocities.iter().enumerate() {
        let (i, j) = size.column_and_row(node);
        let share = axis_weight(particle.x, i) * axis_weight(particle.y, j) * i128::from(u);
        let factors = [1, SPACING * i - particle.x, SPACING * j - particle.y];
        sums = std::array::from_fn(|k| sums[k] + share * factors[k]);
    }
    sums
}

/// What a gather rounds that makes the second records of the first.
fn of_gather(size: Size, [before, after]: [&[u8]; 2], axes: [&[i64]; 2]) -> Vec<Rounding> {
    let [before, after] = [before, after].map(|set| particles(size, set).expect("a set"));
    let mut roundings = Vec::new();
    for (from, to) in before.iter().zip(&after) {
        let [x, y] = axes.map(|velocities| gathered_sums(size, from, velocities));
        for (place, entry, numerator, nearest) in [
            (Place::Velocity, 0, x[0], to.vx),
            (Place::Velocity, 1, y[0], to.vy),
            (Place::Affine, 0, x[1], to.bxx),
            (Place::Affine, 1, x[2], to.bxy),
            (Place::Affine, 2, y[1], to.byx),
            (Place::Affine, 3, y[2], to.byy),
        ] {
            roundings.push(Rounding {
                place,
                entry,
                numerator,
                divisor: WEIGHT_TOTAL * NODE_VELOCITY_UNIT,
                nearest,
            });
        }
    }
    roundings
}

/// What a step, which is completed, rounds; the records are then those after it.
fn of_step(settings: Settings, records: &mut [u8]) -> Vec<Rounding> {
    let (size, before) = (settings.size, records.to_vec());
    let mut grid = Grid::zero(size.nodes());
    scatter_by(Sums::Nearby, size, records, &mut grid.buffers()).expect("a set");
    let mut roundings = of_update(settings, &grid);
    update(settings, &mut grid.buffers()).expect("a scattered set can be updated");
    gather_by(Sums::Nearby, size, records, &grid.x, &grid.y).expect("a completed step");
    roundings.extend(of_gather(size, [&before, records], [&grid.x, &grid.y]));
    roundings
}

/// Whatever a call rounds: an accepted update, gather or step, or the completed steps of a run.
pub fn roundings(case: &Case) -> Vec<Rounding> {
    let (before, after) = (&case.before, &case.after);
    let mut records = before.bytes.clone();
    match (case.operation, &case.answer) {
        (Operation::Update(settings), Answer::Done) => of_update(settings, &before.grid),
        (Operation::Gather(size), Answer::Done) => {
            let axes = [&before.grid.x[..], &before.grid.y];
            of_gather(size, [&before.bytes, &after.bytes], axes)
        }
        (Operation::Step(settings), Answer::Done) => of_step(settings, &mut records),
        (Operation::Run(settings, _), Answer::Ran(answer)) => (0..answer.completed)
            .flat_map(|_| of_step(settings, &mut records))
            .collect(),
        _ => Vec::new(),
    }
}
