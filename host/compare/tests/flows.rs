//! Affine flows through the library: a step gives every particle its v and B back and moves it by its
//! v, a run of a drift goes on so, and `affine_flow` tells such files from others.

use std::path::Path;

use compare::{count, seed, stream};
use engine::{affine_flow, run, step, Flow, GridBuffers, Limit, NoFlow, Refusal};
use reference::bath_file::pack_file;
use reference::generator::Generator;
use reference::limits::MAX_VELOCITY;
use reference::particle_set::pack_records;
use reference::{Edge, Particle, Settings, Size};

/// Particles of a flow, with its A and B.
struct Bath {
    size: Size,
    a: [i128; 2],
    b: [i128; 4],
    particles: Vec<Particle>,
}

impl Bath {
    /// Open edges, no drag, no gravity.
    fn settings(&self) -> Settings {
        Settings::new(self.size, 0, 0)
    }

    fn flow(&self) -> Flow {
        let [ax, ay] = self.a.map(|a| a as i64);
        let [bxx, bxy, byx, byy] = self.b.map(|b| b as i64);
        Flow {
            ax,
            ay,
            bxx,
            bxy,
            byx,
            byy,
        }
    }

    /// The record of the first particle that a step moves off the grid.
    fn first_off(&self, particles: &[Particle]) -> Option<usize> {
        let off = |p: &Particle| !self.size.holds(p.x + p.vx, p.y + p.vy);
        particles.iter().position(off)
    }
}

/// B·d on each axis.
fn times([bxx, bxy, byx, byy]: [i128; 4], (dx, dy): (i128, i128)) -> [i128; 2] {
    [bxx * dx + bxy * dy, byx * dx + byy * dy]
}

/// The kinds of flows: a drift, a turn, a stretch, shear on either axis, any B, and one whose rows total
/// multiples of 1024, so that neighbours along a diagonal have whole velocities whatever its entries are.
const KINDS: usize = 7;
const DRIFT: usize = 0;
const DIAGONAL: usize = 6;

/// B of a flow of this kind, with entries that are multiples of this power of 2 but for the last kind.
fn affine(numbers: &mut Generator, kind: usize, power: i128) -> [i128; 4] {
    let steepest = numbers.one_of(&[1, 3, 2047]).min(2047 >> power);
    let mut entry = || (numbers.one_of(&[-1, 1]) * numbers.between(1, steepest)) << power;
    let [xx, xy, yx, yy] = std::array::from_fn(|_| entry());
    match kind {
        DRIFT => [0; 4],
        1 => [0, xy, -xy, 0],
        2 => [xx, 0, 0, yy],
        3 => [0, xy, 0, 0],
        4 => [0, 0, yx, 0],
        DIAGONAL => {
            let mut row = || {
                let total = 1024 * numbers.between(-2, 2);
                let (low, high) = ((total - 2047).max(-2047), (total + 2047).min(2047));
                let between = numbers.between(low, high);
                let first = numbers.one_of(&[low, high, between, between]);
                (first, total - first)
            };
            let ((xx, xy), (yx, yy)) = (row(), row());
            [xx, xy, yx, yy]
        }
        _ => [xx, xy, yx, yy],
    }
}

/// A number of this range, ends included more often.
fn within(numbers: &mut Generator, (low, high): (i128, i128)) -> i128 {
    let between = numbers.between(low, high);
    numbers.one_of(&[
        low, high, between, between, between, between, between, between,
    ])
}

/// A flow of this kind on an accepted size. Most places are so far apart that B·d is a multiple of 1024;
/// others are where it happens to be.
fn bath(numbers: &mut Generator, kind: usize) -> Bath {
    let size = numbers.size();
    let power = numbers.between(0, 10);
    let b = affine(numbers, kind, power);

    let ends = |nodes: i128| (32, 64 * (nodes - 1) - 33);
    let (columns, rows) = (ends(size.nx), ends(size.ny));
    let fastest = numbers.one_of(&[0, 4, 20, MAX_VELOCITY]);
    let (place, v, a) = loop {
        let place = (within(numbers, columns), within(numbers, rows));
        let v: [i128; 2] = std::array::from_fn(|_| within(numbers, (-fastest, fastest)));
        let [bx, by] = times(b, place);
        let four_a = [1024 * v[0] - bx, 1024 * v[1] - by];
        if four_a.iter().all(|four_a| four_a % 4 == 0) {
            break (place, v, four_a.map(|four_a| four_a / 4));
        }
    };

    let wanted = numbers.between(1, 40) as usize;
    let mut identifier = numbers.between(0, 500);
    let mut particles = Vec::new();
    for _ in 0..20 * wanted {
        if particles.len() == wanted {
            break;
        }
        let (x, y) = if particles.is_empty() {
            place
        } else if numbers.once_in(3) {
            (within(numbers, columns), within(numbers, rows))
        } else if kind == DIAGONAL {
            let along = numbers.between(-40, 40);
            (place.0 + along, place.1 + along)
        } else {
            let mut near = |middle: i128| middle + (1024 >> power) * numbers.between(-6, 6);
            (near(place.0), near(place.1))
        };
        let change = times(b, (x - place.0, y - place.1));
        let velocity = [
            v[0] + change[0].div_euclid(1024),
            v[1] + change[1].div_euclid(1024),
        ];
        let whole = change.iter().all(|change| change % 1024 == 0);
        let slow = velocity.iter().all(|v| v.abs() <= MAX_VELOCITY);
        if whole && slow && size.holds(x, y) {
            let mass = numbers.between(1, 1023);
            let particle = Particle::at_rest(identifier as u16, mass, x, y)
                .moving(velocity[0], velocity[1])
                .with_b(b)
                .with_marks(numbers.marks());
            particles.push(particle);
            identifier += numbers.between(1, 1500);
        }
    }
    Bath {
        size,
        a,
        b,
        particles,
    }
}

/// Whether two particles with different velocities reach the same nodes.
fn mixes(particles: &[Particle]) -> bool {
    let mix = |p: &Particle, q: &Particle| {
        let near = (p.x - q.x).abs() < 128 && (p.y - q.y).abs() < 128;
        near && (p.vx, p.vy) != (q.vx, q.vy)
    };
    let pairs = particles.iter().enumerate();
    pairs
        .into_iter()
        .any(|(k, p)| particles[k + 1..].iter().any(|q| mix(p, q)))
}

/// The particles, each moved so many times by its velocity.
fn moved(particles: &[Particle], times: i128) -> Vec<Particle> {
    let mut moved = particles.to_vec();
    for p in &mut moved {
        (p.x, p.y) = (p.x + times * p.vx, p.y + times * p.vy);
    }
    moved
}

/// The engine's settings.
fn open(size: Size) -> engine::Settings {
    engine::Settings {
        size: engine::Size {
            nx: size.nx as usize,
            ny: size.ny as usize,
        },
        gx: 0,
        gy: 0,
        edge: engine::Edge::Open,
        drag: 0,
    }
}

/// A call with grid buffers that hold something.
fn with_grid<T>(size: Size, call: impl FnOnce(&mut GridBuffers) -> T) -> T {
    let nodes = size.nodes();
    let (mut mass, mut x, mut y) = (vec![5; nodes], vec![-7; nodes], vec![9; nodes]);
    call(&mut GridBuffers {
        mass: &mut mass,
        x: &mut x,
        y: &mut y,
    })
}

fn off(place: usize) -> Refusal {
    Refusal {
        limit: Limit::NewPosition,
        place,
    }
}

/// A step of the bath: all records moved by their v and nothing else, or the first that would leave the
/// grid named, and none moved. Whether it was done.
fn stepped(name: &str, bath: &Bath) -> bool {
    let mut records = pack_records(&bath.particles);
    let before = records.clone();
    let answer = with_grid(bath.size, |grid| step(open(bath.size), &mut records, grid));
    match bath.first_off(&bath.particles) {
        None => {
            assert_eq!(answer, Ok(()), "{name}");
            assert_eq!(records, pack_records(&moved(&bath.particles, 1)), "{name}");
            true
        }
        Some(place) => {
            assert_eq!(answer, Err(off(place)), "{name}");
            assert_eq!(records, before, "{name}");
            false
        }
    }
}

#[test]
fn a_step_gives_a_flow_back() {
    let (mut done, mut mixed, mut refused) = ([0; KINDS], [0; KINDS], 0);
    for number in 0..count().div_ceil(4) {
        let name = format!("flow, COMPARE_SEED {}, input {number}", seed());
        let kind = number as usize % KINDS;
        let bath = bath(&mut stream("flow", number), kind);
        let found = affine_flow(&pack_file(bath.settings(), 1, &bath.particles));
        assert_eq!(found, Ok(bath.flow()), "{name}");
        if stepped(&name, &bath) {
            done[kind] += 1;
            mixed[kind] += usize::from(mixes(&bath.particles));
        } else {
            refused += 1;
        }
    }
    let enough = (1..KINDS).all(|kind| 4 * mixed[kind] > done[kind]) && mixed[DRIFT] == 0;
    assert!(
        enough && done[DRIFT] > 0 && refused > 0,
        "by kind {done:?} done, {mixed:?} of which mix velocities; {refused} refused"
    );
}

#[test]
fn a_run_gives_a_drift_back() {
    let (mut done, mut stopped) = (0, 0);
    for number in 0..count().div_ceil(10) {
        let name = format!("drift, COMPARE_SEED {}, input {number}", seed());
        let numbers = &mut stream("drift", number);
        let bath = bath(numbers, DRIFT);
        let most = numbers.one_of(&[3, 40, 10_000]);
        let steps = numbers.between(0, most);
        let leaving = (0..steps).find_map(|k| {
            let place = bath.first_off(&moved(&bath.particles, k))?;
            Some((k, place))
        });
        let mut records = pack_records(&bath.particles);
        let answer = with_grid(bath.size, |grid| {
            run(open(bath.size), steps as usize, &mut records, grid)
        });
        let completed = leaving.map_or(steps, |(k, _)| k);
        let refusal = leaving.map(|(_, place)| off(place));
        assert_eq!(
            (answer.completed as i128, answer.refusal),
            (completed, refusal),
            "{name}"
        );
        assert_eq!(
            records,
            pack_records(&moved(&bath.particles, completed)),
            "{name}"
        );
        done += usize::from(leaving.is_none());
        stopped += usize::from(leaving.is_some());
    }
    assert!(done > 0 && stopped > 0, "{done} done, {stopped} stopped");
}

/// Other settings, a file one byte short, or one number changed in a particle that is not the first.
#[test]
fn what_is_no_flow() {
    let mut changed = 0;
    for number in 0..count().div_ceil(4) {
        let name = format!("no flow, COMPARE_SEED {}, input {number}", seed());
        let numbers = &mut stream("no flow", number);
        let mut bath = bath(numbers, number as usize % KINDS);
        let settings = bath.settings();
        let others = [
            (Settings { gx: 1, ..settings }, NoFlow::Gravity),
            (Settings { gy: -1, ..settings }, NoFlow::Gravity),
            (settings.with_edge(Edge::slip(1)), NoFlow::Edge),
            (settings.with_edge(Edge::sticky(3)), NoFlow::Edge),
            (settings.with_drag(1), NoFlow::Drag),
        ];
        for (settings, why) in others {
            let found = affine_flow(&pack_file(settings, 1, &bath.particles));
            assert_eq!(found, Err(why), "{name}");
        }
        let mut cut = pack_file(settings, 1, &bath.particles);
        cut.pop();
        let refusal = engine::read_file(&cut).expect_err("a file of another length");
        assert_eq!(affine_flow(&cut), Err(NoFlow::Refused(refusal)), "{name}");

        if bath.particles.len() < 2 {
            continue;
        }
        let k = numbers.between(1, bath.particles.len() as i128 - 1) as usize;
        let p = &mut bath.particles[k];
        let velocities = [&mut p.vx, &mut p.vy];
        let entries = [&mut p.bxx, &mut p.bxy, &mut p.byx, &mut p.byy];
        let (number, why) = if numbers.once_in(2) {
            let number = velocities.into_iter().nth(numbers.between(0, 1) as usize);
            (number, NoFlow::Velocity(k))
        } else {
            let number = entries.into_iter().nth(numbers.between(0, 3) as usize);
            (number, NoFlow::OtherB(k))
        };
        let number = number.expect("a number of the particle");
        *number += if *number > 0 { -1 } else { 1 };
        let found = affine_flow(&pack_file(settings, 1, &bath.particles));
        assert_eq!(found, Err(why), "{name}");
        changed += 1;
    }
    assert!(changed > 0, "no particle changed");
}

/// A of one particle is a whole number of 256ths where B·place is a multiple of 4, on each axis by each
/// entry of B.
#[test]
fn a_of_whole_256ths() {
    let settings = Settings::new(Size::new(6, 5), 0, 0);
    for (x, y) in [
        (100, 120),
        (101, 120),
        (102, 120),
        (103, 120),
        (100, 121),
        (100, 123),
    ] {
        for entry in 0..4 {
            let mut b = [0; 4];
            b[entry] = if x % 2 == 0 { 1 } else { -5 };
            let [bx, by] = times(b, (x, y));
            let particle = Particle::at_rest(4, 9, x, y).moving(3, -2).with_b(b);
            let found = affine_flow(&pack_file(settings, 1, &[particle]));
            let whole = bx % 4 == 0 && by % 4 == 0;
            assert_eq!(whole, [x, y, x, y][entry] % 4 == 0);
            let a = found.map(|flow| (4 * flow.ax, 4 * flow.ay));
            let wanted = (3 * 1024 - bx as i64, -2 * 1024 - by as i64);
            let expected = if whole {
                Ok(wanted)
            } else {
                Err(NoFlow::Velocity(0))
            };
            assert_eq!(a, expected, "{b:?} at ({x}, {y})");
        }
    }
}

/// A file of the folder of samples.
fn sample(name: &str) -> Vec<u8> {
    let folder = Path::new(env!("CARGO_MANIFEST_DIR")).join("../../examples");
    std::fs::read(folder.join(name)).expect("a sample")
}

/// The sample files: which of them are flows.
#[test]
fn samples() {
    let turn = Flow {
        ax: 7520,
        ay: -9600,
        bxy: -64,
        byx: 64,
        ..Flow::default()
    };
    assert_eq!(affine_flow(&sample("turn.bath")), Ok(turn));
    let drift = Flow {
        ax: 5 * 256,
        ay: -3 * 256,
        ..Flow::default()
    };
    assert_eq!(affine_flow(&sample("drift.bath")), Ok(drift));
    assert_eq!(
        affine_flow(&sample("spinning.bath")),
        Err(NoFlow::OtherB(1))
    );
    assert_eq!(
        affine_flow(&sample("leaving.bath")),
        Err(NoFlow::Velocity(1))
    );
    assert_eq!(affine_flow(&sample("still.bath")), Err(NoFlow::Gravity));
    let refused = affine_flow(&sample("refused.bath")).expect_err("a refused file");
    let sentence = "refused 8 at 2: an identifier is not above the one before";
    assert_eq!(refused.to_string(), sentence);
}
