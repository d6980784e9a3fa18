//! The cases, operation by operation.

mod files;
mod halves;
mod page;
mod records;
mod sets;
mod simulation;
mod stores;
mod transfers;

use reference::limits::RECORD_LENGTH;
use reference::particle_set::pack_records;
use reference::{Caller, Edge, Grid, Particle, Refusal, Settings, Size};

use crate::{perform, Buffers, Case, Operation};

/// All cases.
pub fn cases() -> Vec<Case> {
    let bench = [
        records::cases(),
        sets::cases(),
        transfers::cases(),
        simulation::cases(),
        halves::cases(),
        files::cases(),
        stores::cases(),
    ]
    .concat();
    let repeated = page::repeated(&bench);
    [bench, page::cases(), repeated].concat()
}

/// The smallest grid.
const SMALL: Size = Size { nx: 4, ny: 4 };

/// A case with the refusal that is expected of it: number and place, or none.
fn case(
    name: impl Into<String>,
    operation: Operation,
    before: Buffers,
    stated: Option<(u32, usize)>,
) -> Case {
    case_for(Caller::Bench, name, operation, before, stated)
}

/// A caller's case.
fn case_for(
    caller: Caller,
    name: impl Into<String>,
    operation: Operation,
    before: Buffers,
    stated: Option<(u32, usize)>,
) -> Case {
    let mut after = before.clone();
    let answer = perform(caller, operation, &mut after);
    Case {
        name: name.into(),
        caller,
        operation,
        before,
        answer,
        after,
        stated: stated.map(|(number, place)| Refusal::at(number, place)),
    }
}

/// Buffers without a grid.
fn bytes(bytes: impl Into<Vec<u8>>) -> Buffers {
    Buffers::of_bytes(bytes.into())
}

/// A grid for the size that holds what no operation leaves.
fn used_grid(size: Size) -> Grid {
    Grid::filled(size.nodes(), 9, -8, 7)
}

/// Records with a used grid of this size.
fn with_grid(bytes: impl Into<Vec<u8>>, size: Size) -> Buffers {
    Buffers::new(bytes.into(), used_grid(size))
}

/// The printed example's particle.
fn printed() -> Particle {
    Particle::at_rest(7, 2, 64, 64).moving(3, -2)
}

/// The particle with marks that its other fields decide. Those of particles that differ in their rising
/// identifiers alone rise too.
fn marked(particle: Particle) -> Particle {
    let [identifier, numbers @ .., _] = particle.fields();
    let mixed = numbers.iter().fold(0, |mixed, number| 31 * mixed + number);
    particle.with_marks((identifier + mixed) as u8)
}

/// The records of particles with such marks, in range or not.
fn marked_records(particles: &[Particle]) -> Vec<u8> {
    let marked: Vec<Particle> = particles.iter().copied().map(marked).collect();
    pack_records(&marked)
}

/// A particle of mass 1 at rest at (64, 64) with B zero.
fn lone(identifier: u16) -> Particle {
    Particle::at_rest(identifier, 1, 64, 64)
}

/// Particles that share nodes, with marks of both ends, with equal ones and with ones between.
fn differing_marks() -> [Particle; 5] {
    [
        Particle::at_rest(10, 5, 190, 210)
            .moving(4, -3)
            .with_b([100, -200, 300, -50])
            .with_marks(255),
        Particle::at_rest(20, 70, 217, 195)
            .moving(-2, 6)
            .with_b([-40, 60, 90, 150])
            .with_marks(0),
        Particle::at_rest(21, 311, 170, 260)
            .moving(1, 0)
            .with_marks(128),
        Particle::at_rest(300, 2, 201, 239)
            .moving(-5, 2)
            .with_marks(1),
        Particle::at_rest(301, 90, 233, 222)
            .moving(0, -4)
            .with_marks(128),
    ]
}

/// Particles equal but for their identifiers, which rise from 0.
fn copies(count: u16, particle: Particle) -> Vec<Particle> {
    let copy = |identifier| Particle {
        identifier,
        ..particle
    };
    (0..count).map(copy).collect()
}

/// Equal particles with the greatest total mass: 128 of mass 1023 and one of 128.
fn heaviest(particle: Particle) -> Vec<Particle> {
    let mut particles = copies(
        129,
        Particle {
            mass: 1023,
            ..particle
        },
    );
    particles[128].mass = 128;
    particles
}

/// Bytes of a set, with the number and place of its refusal.
type RefusedSet = (&'static str, Vec<u8>, (u32, usize));

/// Sets refused on 4 by 4 nodes.
fn refused_sets() -> Vec<RefusedSet> {
    [refused_lengths(), refused_records(), refused_in_order()].concat()
}

/// Records without the byte of their marks.
fn without_marks(records: &[u8]) -> Vec<u8> {
    let lacking = |record: &[u8]| record[..RECORD_LENGTH - 1].to_vec();
    records.chunks(RECORD_LENGTH).flat_map(lacking).collect()
}

fn refused_lengths() -> Vec<RefusedSet> {
    let record = marked(lone(3)).pack();
    let lacking = without_marks(&marked_records(&copies(2, lone(0))));
    vec![
        ("length-1", vec![0xA5], (1, 0)),
        ("length-14", record[..RECORD_LENGTH - 1].to_vec(), (1, 0)),
        ("length-16", [&record[..], &[0]].concat(), (1, 0)),
        ("records-2-without-marks", lacking, (1, 0)),
        (
            "records-4097",
            marked_records(&copies(4097, lone(0))),
            (1, 0),
        ),
    ]
}

/// Three records, the middle one changed.
fn middle_changed(change: impl Fn(&mut Particle)) -> Vec<u8> {
    let mut particles = [lone(3), lone(5), lone(9)];
    change(&mut particles[1]);
    marked_records(&particles)
}

/// One limit broken.
fn refused_records() -> Vec<RefusedSet> {
    let one = |change: fn(&mut Particle)| middle_changed(change);
    vec![
        ("mass-0", one(|p| p.mass = 0), (4, 1)),
        ("vx--64", one(|p| p.vx = -64), (5, 1)),
        ("vy--64", one(|p| p.vy = -64), (5, 1)),
        ("Bxx--2048", one(|p| p.bxx = -2048), (6, 1)),
        ("Bxy--2048", one(|p| p.bxy = -2048), (6, 1)),
        ("Byx--2048", one(|p| p.byx = -2048), (6, 1)),
        ("Byy--2048", one(|p| p.byy = -2048), (6, 1)),
        ("x-31", one(|p| p.x = 31), (7, 1)),
        ("x-160", one(|p| p.x = 160), (7, 1)),
        ("y-31", one(|p| p.y = 31), (7, 1)),
        ("y-160", one(|p| p.y = 160), (7, 1)),
        ("identifier-repeats", one(|p| p.identifier = 3), (8, 1)),
        ("identifier-falls", one(|p| p.identifier = 2), (8, 1)),
        ("next-identifier-falls", one(|p| p.identifier = 10), (8, 2)),
        ("total-mass-131073", marked_records(&too_heavy()), (9, 128)),
    ]
}

/// Several limits broken.
fn refused_in_order() -> Vec<RefusedSet> {
    let one = |change: fn(&mut Particle)| middle_changed(change);
    let all = Particle::at_rest(3, 0, 0, 4095)
        .moving(-64, -64)
        .with_b([-2048; 4]);
    let fast = lone(5).moving(0, -64).with_b([-2048; 4]);
    let mut later = too_heavy();
    later.push(Particle {
        mass: 0,
        ..lone(500)
    });
    vec![
        ("4-before-the-rest", middle_changed(|p| *p = all), (4, 1)),
        ("5-before-6", middle_changed(|p| *p = fast), (5, 1)),
        ("6-before-7", one(|p| (p.bxy, p.x) = (-2048, 0)), (6, 1)),
        (
            "7-before-8",
            one(|p| (p.y, p.identifier) = (4095, 3)),
            (7, 1),
        ),
        ("8-before-9", repeated_and_heavy(), (8, 128)),
        ("lower-record-first", marked_records(&later), (9, 128)),
    ]
}

/// Total mass 131,073 with the last record.
fn too_heavy() -> Vec<Particle> {
    let mut particles = heaviest(lone(0));
    particles[128].mass = 129;
    particles
}

/// The last record repeats an identifier and passes the total mass.
fn repeated_and_heavy() -> Vec<u8> {
    let mut particles = too_heavy();
    particles[128].identifier = 127;
    marked_records(&particles)
}

/// Sets accepted on 4 by 4 nodes.
fn accepted_sets() -> Vec<(&'static str, Vec<u8>)> {
    let low = Particle::at_rest(0, 1, 32, 32)
        .moving(-63, -63)
        .with_b([-2047; 4]);
    let high = Particle::at_rest(u16::MAX, 1023, 159, 159)
        .moving(63, 63)
        .with_b([2047; 4])
        .with_marks(u8::MAX);
    vec![
        ("empty", vec![]),
        ("one", marked(lone(7)).pack().to_vec()),
        ("two-at-one-place", marked_records(&copies(2, lone(0)))),
        ("smallest-and-largest", pack_records(&[low, high])),
        (
            "records-4096",
            marked_records(&copies(
                4096,
                Particle {
                    mass: 32,
                    ..lone(0)
                },
            )),
        ),
        ("total-mass-131072", marked_records(&heaviest(lone(0)))),
    ]
}

/// Sizes that are refused.
const REFUSED_SIZES: [(&str, Size); 6] = [
    ("nx-3", Size { nx: 3, ny: 4 }),
    ("ny-3", Size { nx: 4, ny: 3 }),
    ("nx-49", Size { nx: 49, ny: 48 }),
    ("ny-49", Size { nx: 48, ny: 49 }),
    ("nx-0", Size { nx: 0, ny: 0 }),
    ("nx-255", Size { nx: 255, ny: 255 }),
];

/// Edges that are refused: kinds that there are not, widths that their kinds do not have, and numbers
/// that a narrower type cuts to an edge.
const REFUSED_EDGES: [(&str, Edge); 15] = [
    ("kind-3-width-0", Edge::new(3, 0)),
    ("kind-3-width-3", Edge::new(3, 3)),
    ("kind-4", Edge::new(4, 0)),
    ("kind-257", Edge::new(257, 1)),
    ("kind-2^32", Edge::new(1 << 32, 0)),
    ("kind-2^64-1", Edge::new(u64::MAX as i128, 2)),
    ("open-width-1", Edge::new(0, 1)),
    ("open-width-4", Edge::new(0, 4)),
    ("open-width-2^32", Edge::new(0, 1 << 32)),
    ("sticky-width-0", Edge::sticky(0)),
    ("sticky-width-4", Edge::sticky(4)),
    ("sticky-width-2^32+1", Edge::sticky((1 << 32) + 1)),
    ("slip-width-0", Edge::slip(0)),
    ("slip-width-4", Edge::slip(4)),
    ("slip-width-257", Edge::slip(257)),
];

/// Drags that are refused.
const REFUSED_DRAGS: [i128; 6] = [256, 257, 65_536, 1 << 32, (1 << 32) + 1, u64::MAX as i128];

/// An accepted edge in words.
fn edge_name(edge: Edge) -> String {
    match edge {
        Edge::OPEN => "open".to_string(),
        Edge { kind: 1, width } => format!("sticky-{width}"),
        Edge { width, .. } => format!("slip-{width}"),
    }
}

/// Settings of which all but the size is refused.
fn broken(size: Size) -> Settings {
    Settings::new(size, 4097, -9)
        .with_edge(Edge::new(3, 1))
        .with_drag(256)
}

/// Gravity, edges and drags that are refused on 4 by 4 nodes, each with those that are looked at later
/// broken too.
fn refused_forcings() -> Vec<(String, Settings, (u32, usize))> {
    let mut refused = Vec::new();
    for (gx, gy) in [(4097, 0), (-4097, 0), (0, 4097), (0, -4097)] {
        let settings = Settings {
            gx,
            gy,
            ..broken(SMALL)
        };
        refused.push((format!("gx-{gx}-gy-{gy}"), settings, (10, 0)));
    }
    let accepted = Settings::new(SMALL, 4096, -4096);
    for (name, edge) in REFUSED_EDGES {
        let settings = accepted.with_edge(edge).with_drag(256);
        refused.push((name.to_string(), settings, (18, 0)));
    }
    for drag in REFUSED_DRAGS {
        let settings = accepted.with_edge(Edge::slip(3)).with_drag(drag);
        refused.push((format!("drag-{drag}"), settings, (19, 0)));
    }
    refused
}

/// Particles so far from the four corners of a grid on both axes.
fn corners(size: Size, inside: i128) -> Vec<u8> {
    let low = 32 + inside;
    let high = |nodes: i128| 64 * (nodes - 1) - 33 - inside;
    let (right, top) = (high(size.nx), high(size.ny));
    let at = |identifier, x, y| {
        Particle::at_rest(identifier, 3, x, y)
            .moving(2, -1)
            .with_b([9, -8, 7, -6])
    };
    marked_records(&[
        at(1, low, low),
        at(2, right, low),
        at(3, low, top),
        at(4, right, top),
    ])
}

/// Changes one buffer of a grid.
type GridChange = (&'static str, fn(&mut Grid));

/// Grids of wrong length.
const REFUSED_GRIDS: [GridChange; 6] = [
    ("mass-short", |grid| grid.mass.truncate(15)),
    ("mass-long", |grid| grid.mass.push(1)),
    ("x-short", |grid| grid.x.truncate(15)),
    ("x-long", |grid| grid.x.push(1)),
    ("y-empty", |grid| grid.y.clear()),
    ("y-long", |grid| grid.y.push(1)),
];
