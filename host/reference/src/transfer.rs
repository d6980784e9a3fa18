//! Scatter, update and gather: "The step" of document 01, by source document 003's transfers (3)
//! and (4), with document 02's drag, rim and rounding, and its adding scatter.

use std::ops::Range;

use crate::caller::Caller;
use crate::grid::{check_node_buffers, GridBuffers, Settings, Size};
use crate::limits::{
    D, DRAG_UNIT, MAX_B, MAX_NODE_MASS, MAX_NODE_VELOCITY, MAX_PRESENT_MOMENTUM, MAX_VELOCITY,
    NODE_VELOCITY_UNIT, SPACING, WEIGHT_TOTAL,
};
use crate::particle::Particle;
use crate::particle_set::{check_given, pack_records, walk};
use crate::refusal::{
    require, within, Refusal, ADDED_MASS, NEW_AFFINE, NEW_PLACE, NEW_VELOCITY, NODE_MASS,
    NODE_VELOCITY, PRESENT_NODE,
};
use crate::rounding::round_to_nearest;
use crate::spline::{axis_weight, nearest_node};

/// Which terms the sums of a transfer run over. Both give the same numbers; the tests compare them.
#[derive(Clone, Copy, Debug, PartialEq, Eq)]
pub enum Sums {
    /// Every particle with every node, as the definitions say.
    Literal,
    /// Only the nine nodes around a particle; the others have weight 0.
    Nearby,
}

impl Sums {
    /// The nodes of one axis that a sum for coordinate x runs over.
    fn axis_nodes(self, nodes: i128, x: i128) -> Range<i128> {
        match self {
            Sums::Literal => 0..nodes,
            Sums::Nearby => nearest_node(x) - 1..nearest_node(x) + 2,
        }
    }
}

/// Mass and momentum of one node.
#[derive(Clone, Copy, Default)]
struct Node {
    mass: i128,
    x: i128,
    y: i128,
}

impl Node {
    /// Adds one particle's share for node (i, j).
    fn add(&mut self, particle: &Particle, i: i128, j: i128) {
        let mass = particle.mass * node_weight(particle, i, j);
        let (dx, dy) = node_offset(particle, i, j);
        self.mass += mass;
        self.x += mass * (D * particle.vx + particle.bxx * dx + particle.bxy * dy);
        self.y += mass * (D * particle.vy + particle.byx * dx + particle.byy * dy);
    }
}

/// The weight of node (i, j) for a particle.
fn node_weight(particle: &Particle, i: i128, j: i128) -> i128 {
    axis_weight(particle.x, i) * axis_weight(particle.y, j)
}

/// Place of node (i, j) minus place of the particle.
fn node_offset(particle: &Particle, i: i128, j: i128) -> (i128, i128) {
    (SPACING * i - particle.x, SPACING * j - particle.y)
}

/// Node (i, j) as a sum over all particles.
fn node_sum(particles: &[Particle], i: i128, j: i128) -> Node {
    let mut node = Node::default();
    for particle in particles {
        node.add(particle, i, j);
    }
    node
}

/// All nodes, in the order of their indices.
fn node_sums(sums: Sums, size: Size, particles: &[Particle]) -> Vec<Node> {
    match sums {
        Sums::Literal => (0..size.ny)
            .flat_map(|j| (0..size.nx).map(move |i| (i, j)))
            .map(|(i, j)| node_sum(particles, i, j))
            .collect(),
        Sums::Nearby => {
            let mut nodes = vec![Node::default(); size.nodes()];
            for particle in particles {
                add_nearby(size, particle, &mut nodes);
            }
            nodes
        }
    }
}

/// Adds a particle to the nine nodes around it.
fn add_nearby(size: Size, particle: &Particle, nodes: &mut [Node]) {
    for j in Sums::Nearby.axis_nodes(size.ny, particle.y) {
        for i in Sums::Nearby.axis_nodes(size.nx, particle.x) {
            nodes[size.index(i, j)].add(particle, i, j);
        }
    }
}

/// A number that document 01's limits keep within 64 bits.
fn fit<T: TryFrom<i128>>(number: i128) -> T {
    T::try_from(number)
        .ok()
        .expect("within 64 bits by the limits")
}

/// The set's nodes for this grid. Refused: 2; 1, also for the grid buffers; 3; then the set.
fn set_nodes(
    caller: Caller,
    sums: Sums,
    size: Size,
    records: &[u8],
    grid: &GridBuffers,
) -> Result<Vec<Node>, Refusal> {
    check_given(caller.limits(), size, records, &grid.lengths())?;
    let particles = walk(size, records, 0)?;
    Ok(node_sums(sums, size, &particles))
}

/// Puts nodes into the grid, in the order of their indices.
fn put_nodes(nodes: &[Node], grid: &mut GridBuffers) {
    for (index, node) in nodes.iter().enumerate() {
        grid.mass[index] = fit(node.mass);
        grid.x[index] = fit(node.x);
        grid.y[index] = fit(node.y);
    }
}

/// Scatter: the grid then holds node masses and momenta of the set, whatever it held.
/// Refused: 2; 1, also for the grid buffers; 3; then the set.
pub fn scatter(size: Size, records: &[u8], grid: &mut GridBuffers) -> Result<(), Refusal> {
    scatter_by(Sums::Literal, size, records, grid)
}

/// Scatter by the given sums.
pub fn scatter_by(
    sums: Sums,
    size: Size,
    records: &[u8],
    grid: &mut GridBuffers,
) -> Result<(), Refusal> {
    scatter_for(Caller::Bench, sums, size, records, grid)
}

/// A caller's scatter.
pub fn scatter_for(
    caller: Caller,
    sums: Sums,
    size: Size,
    records: &[u8],
    grid: &mut GridBuffers,
) -> Result<(), Refusal> {
    let nodes = set_nodes(caller, sums, size, records, grid)?;
    put_nodes(&nodes, grid);
    Ok(())
}

/// What a node holds and the set's share of it, or 20 or 21 at it.
fn added_node(grid: &GridBuffers, index: usize, share: Node) -> Result<Node, Refusal> {
    let present = Node {
        mass: grid.mass[index].into(),
        x: grid.x[index].into(),
        y: grid.y[index].into(),
    };
    let most = MAX_PRESENT_MOMENTUM * present.mass;
    let slow = within(present.x, most) && within(present.y, most);
    require(present.mass <= MAX_NODE_MASS && slow, PRESENT_NODE, index)?;
    let mass = present.mass + share.mass;
    require(mass <= MAX_NODE_MASS, ADDED_MASS, index)?;
    Ok(Node {
        mass,
        x: present.x + share.x,
        y: present.y + share.y,
    })
}

/// Adding scatter: the set's node masses and momenta are added to those that the grid holds.
/// Refused: 2; 1, also for the grid buffers; 3; the set; then for each node 20, 21.
pub fn adding_scatter(size: Size, records: &[u8], grid: &mut GridBuffers) -> Result<(), Refusal> {
    adding_scatter_by(Sums::Literal, size, records, grid)
}

/// Adding scatter by the given sums.
pub fn adding_scatter_by(
    sums: Sums,
    size: Size,
    records: &[u8],
    grid: &mut GridBuffers,
) -> Result<(), Refusal> {
    adding_scatter_for(Caller::Bench, sums, size, records, grid)
}

/// A caller's adding scatter.
pub fn adding_scatter_for(
    caller: Caller,
    sums: Sums,
    size: Size,
    records: &[u8],
    grid: &mut GridBuffers,
) -> Result<(), Refusal> {
    let shares = set_nodes(caller, sums, size, records, grid)?;
    let nodes = shares
        .into_iter()
        .enumerate()
        .map(|(index, share)| added_node(grid, index, share))
        .collect::<Result<Vec<_>, _>>()?;
    put_nodes(&nodes, grid);
    Ok(())
}

/// Velocity of a node in 256ths, on one axis: momentum/(4M) rounded, plus gravity; 0 without mass.
pub fn node_velocity(mass: u64, momentum: i64, gravity: i128) -> i128 {
    if mass == 0 {
        return 0;
    }
    let divisor = i128::from(mass) * D / NODE_VELOCITY_UNIT;
    round_to_nearest(momentum.into(), divisor) + gravity
}

/// What drag leaves of a node's velocity on one axis: it loses u·drag/256, rounded.
pub fn after_drag(u: i128, drag: i128) -> i128 {
    u - round_to_nearest(u * drag, DRAG_UNIT)
}

/// Updated velocities of one node, or 11 or 12 at it: after gravity, where 12 looks at them, then
/// after drag, then past the rim.
fn updated_node(settings: Settings, grid: &GridBuffers, node: usize) -> Result<[i128; 2], Refusal> {
    let (mass, momentum) = (grid.mass[node], [grid.x[node], grid.y[node]]);
    require(i128::from(mass) <= MAX_NODE_MASS, NODE_MASS, node)?;
    require(mass > 0 || momentum == [0, 0], NODE_MASS, node)?;
    let velocity = [
        node_velocity(mass, momentum[0], settings.gx),
        node_velocity(mass, momentum[1], settings.gy),
    ];
    let accepted = velocity.iter().all(|&u| within(u, MAX_NODE_VELOCITY));
    require(accepted, NODE_VELOCITY, node)?;
    let slowed = velocity.map(|u| after_drag(u, settings.drag));
    let Settings { size, edge, .. } = settings;
    Ok(edge.rim(size, size.column_and_row(node), slowed))
}

/// Update: node velocities take the place of node momenta; masses stay.
/// Refused: 2; 1 for the grid buffers; 10; 18; 19; then for each node 11, 12.
pub fn update(settings: Settings, grid: &mut GridBuffers) -> Result<(), Refusal> {
    update_for(Caller::Bench, settings, grid)
}

/// A caller's update.
pub fn update_for(
    caller: Caller,
    settings: Settings,
    grid: &mut GridBuffers,
) -> Result<(), Refusal> {
    settings.size.check(caller.limits())?;
    check_node_buffers(settings.size, &grid.lengths())?;
    settings.check_forcing()?;
    let velocities = (0..settings.size.nodes())
        .map(|node| updated_node(settings, grid, node))
        .collect::<Result<Vec<_>, _>>()?;
    for (node, [x, y]) in velocities.into_iter().enumerate() {
        grid.x[node] = fit(x);
        grid.y[node] = fit(y);
    }
    Ok(())
}

/// Node velocities to gather from.
#[derive(Clone, Copy)]
struct VelocityField<'a> {
    size: Size,
    x: &'a [i64],
    y: &'a [i64],
}

impl VelocityField<'_> {
    /// Refuses 12 for the lowest node whose velocity is out of range.
    fn check(&self) -> Result<(), Refusal> {
        for (node, (&x, &y)) in self.x.iter().zip(self.y).enumerate() {
            let accepted = [x, y].iter().all(|&u| within(u.into(), MAX_NODE_VELOCITY));
            require(accepted, NODE_VELOCITY, node)?;
        }
        Ok(())
    }

    /// The particle after the gather: new velocity and B, then moved by the new velocity.
    fn gathered(&self, sums: Sums, particle: &Particle) -> Particle {
        let mut v = [0; 2];
        let mut b = [0; 4];
        for j in sums.axis_nodes(self.size.ny, particle.y) {
            for i in sums.axis_nodes(self.size.nx, particle.x) {
                let w = node_weight(particle, i, j);
                let (dx, dy) = node_offset(particle, i, j);
                let node = self.size.index(i, j);
                let (ux, uy) = (i128::from(self.x[node]), i128::from(self.y[node]));
                v = [v[0] + w * ux, v[1] + w * uy];
                let share = [w * ux * dx, w * ux * dy, w * uy * dx, w * uy * dy];
                b = std::array::from_fn(|entry| b[entry] + share[entry]);
            }
        }
        let rounded = |sum: i128| round_to_nearest(sum, WEIGHT_TOTAL * NODE_VELOCITY_UNIT);
        moved(particle, v.map(rounded), b.map(rounded))
    }
}

/// The particle with a new velocity and B, moved by that velocity.
fn moved(particle: &Particle, [vx, vy]: [i128; 2], b: [i128; 4]) -> Particle {
    Particle {
        x: particle.x + vx,
        y: particle.y + vy,
        ..particle.moving(vx, vy).with_b(b)
    }
}

/// Refuses 13, 14, 15 for a gathered particle.
fn check_gathered(size: Size, particle: &Particle, place: usize) -> Result<(), Refusal> {
    let slow = within(particle.vx, MAX_VELOCITY) && within(particle.vy, MAX_VELOCITY);
    require(slow, NEW_VELOCITY, place)?;
    let bounded = particle.b().iter().all(|&b| within(b, MAX_B));
    require(bounded, NEW_AFFINE, place)?;
    require(size.holds(particle.x, particle.y), NEW_PLACE, place)
}

/// Gather: the records then hold the moved particles. Refused: 2; 1, also for the velocity
/// buffers; 3; the set; for each node 12; for each record 13, 14, 15.
pub fn gather(size: Size, records: &mut [u8], x: &[i64], y: &[i64]) -> Result<(), Refusal> {
    gather_by(Sums::Literal, size, records, x, y)
}

/// Gather by the given sums.
pub fn gather_by(
    sums: Sums,
    size: Size,
    records: &mut [u8],
    x: &[i64],
    y: &[i64],
) -> Result<(), Refusal> {
    gather_for(Caller::Bench, sums, size, records, x, y)
}

/// A caller's gather.
pub fn gather_for(
    caller: Caller,
    sums: Sums,
    size: Size,
    records: &mut [u8],
    x: &[i64],
    y: &[i64],
) -> Result<(), Refusal> {
    check_given(caller.limits(), size, records, &[x.len(), y.len()])?;
    let particles = walk(size, records, 0)?;
    let field = VelocityField { size, x, y };
    field.check()?;
    let mut after = Vec::new();
    for (place, particle) in particles.iter().enumerate() {
        let particle = field.gathered(sums, particle);
        check_gathered(size, &particle, place)?;
        after.push(particle);
    }
    records.copy_from_slice(&pack_records(&after));
    Ok(())
}
