//! Numbers that are halves, and those next to them, at each of the four places that are rounded.

use reference::{Particle, Settings, Size};

use super::transfers::{field, gather_field, update_nodes_with, HEAVY};
use super::{case, marked_records, with_grid};
use crate::roundings::gathered_sums;
use crate::{Case, Operation};

pub fn cases() -> Vec<Case> {
    [
        node_velocities(),
        drags(),
        gathered_velocities(),
        gathered_b(),
        beside_gathered_velocities(),
        beside_gathered_b(),
        steps(),
        runs(),
    ]
    .concat()
}

/// Both signs, with what x and y then are.
const WAYS: [(i64, &str); 2] = [(1, "x-up-y-down"), (-1, "x-down-y-up")];

/// Nodes of one mass whose momenta or velocities are these on x and, of the other sign and from the last
/// on, on y.
fn opposite(mass: u64, sign: i64, numbers: &[i64]) -> Vec<(u64, i64, i64)> {
    let pairs = numbers.iter().zip(numbers.iter().rev());
    pairs.map(|(x, y)| (mass, sign * x, -sign * y)).collect()
}

/// Velocities of nodes at 1/2 to 7/2, and momenta one less and one more.
fn node_velocities() -> Vec<Case> {
    let masses = [
        ("1", 1),
        ("3", 3),
        ("2^42+1", HEAVY / 2 + 1),
        ("2^43-1", HEAVY - 1),
        ("2^43", HEAVY),
    ];
    let mut cases = Vec::new();
    for (mass_name, mass) in masses {
        let about = |halves: i64| [-1, 0, 1].map(|beside| 2 * mass as i64 * halves + beside);
        let momenta = [1, 3, 5, 7].map(about).concat();
        for (sign, way) in WAYS {
            let name = format!("node-velocity-halves-mass-{mass_name}-{way}");
            let nodes = opposite(mass, sign, &momenta);
            let settings = Settings::new(OBLONG, 3, -5);
            cases.push(update_nodes_with(&name, settings, &nodes, None));
        }
    }
    cases
}

/// The first velocities of which drag takes a half but for at most a 256th.
fn drags() -> Vec<Case> {
    let mut cases = Vec::new();
    for drag in [1, 2, 64, 127, 128, 129, 192, 254, 255] {
        let near_half = |u: &i64| (127..=129).contains(&(u * drag % 256));
        let velocities: Vec<i64> = (1..).filter(near_half).take(12).collect();
        for (sign, way) in WAYS {
            let name = format!("drag-{drag}-halves-{way}");
            let settings = Settings::new(OBLONG, 3, -5).with_drag(drag.into());
            // Momenta to which gravity adds up to these velocities.
            let mut nodes = opposite(3, sign, &velocities);
            for (_, x, y) in &mut nodes {
                (*x, *y) = (12 * (*x - 3), 12 * (*y + 5));
            }
            cases.push(update_nodes_with(&name, settings, &nodes, None));
        }
    }
    cases
}

/// The grid of the gathers, steps and runs.
const OBLONG: Size = Size { nx: 9, ny: 7 };

/// A half in the sums of a gather.
const HALF: i128 = 1 << 33;

/// Velocities that rise by a from column to column and by b from row to row, at node (0, 0) from c on.
/// They gather to a/16 and b/16 as entries of B, and in 256ths to a·x/64 + b·y/64 + c as v.
fn plane(a: i64, b: i64, c: i64) -> Vec<i64> {
    field(OBLONG, |i, j| a * i + b * j + c)
}

/// Velocities that a particle gathers to so many halves as v and as the two entries of B. Its places are
/// multiples of 8.
fn plane_of_halves(particle: &Particle, [v, across, up]: [i64; 3]) -> Vec<i64> {
    let (x, y) = (particle.x as i64, particle.y as i64);
    let velocities = plane(8 * across, 8 * up, 128 * v - (across * x + up * y) / 8);
    let sums = [v, across, up].map(|halves| i128::from(halves) * HALF);
    assert_eq!(gathered_sums(OBLONG, particle, &velocities), sums);
    velocities
}

/// Places at a node, between nodes, and half way between them.
const PLACES: [(i128, i128); 3] = [(192, 128), (200, 176), (288, 96)];

/// Four odd numbers, from this one on each larger in size than the one before and of the other sign.
fn four_halves(first: i64) -> [i64; 4] {
    let more = 2 * first.signum();
    [first, -first - more, first + 2 * more, -first - 3 * more]
}

/// Gathered velocities that are halves, where B is whole.
fn gathered_velocities() -> Vec<Case> {
    let mut cases = Vec::new();
    for (x, y) in PLACES {
        for first in [1, 3, 5, -1, -3, -5] {
            let [vx, vy, ..] = four_halves(first);
            let name = format!("v-of-{vx}-and-{vy}-halves-at-{x}-{y}");
            let particle = Particle::at_rest(3, 9, x, y).moving(7, 1);
            let velocities = (
                plane_of_halves(&particle, [vx, 6, -10]),
                plane_of_halves(&particle, [vy, 0, 4]),
            );
            cases.push(gather_field(&name, OBLONG, &[particle], velocities, None));
        }
    }
    cases
}

/// Gathered entries of B that are halves, where the velocity is whole.
fn gathered_b() -> Vec<Case> {
    let mut cases = Vec::new();
    for (x, y) in PLACES {
        for first in [1, 3, 5, -1, -3, -5] {
            let [xx, xy, yx, yy] = four_halves(first);
            let name = format!("B-of-{xx}-{xy}-{yx}-{yy}-halves-at-{x}-{y}");
            let particle = Particle::at_rest(3, 9, x, y).moving(7, 1);
            let velocities = (
                plane_of_halves(&particle, [8, xx, xy]),
                plane_of_halves(&particle, [-2, yx, yy]),
            );
            cases.push(gather_field(&name, OBLONG, &[particle], velocities, None));
        }
    }
    cases
}

/// A particle whose node to the left and below has a weight of 1.
fn cornered() -> Particle {
    Particle::at_rest(3, 9, 64 * 3 + 31, 64 * 2 + 31)
}

/// Halves with their signs, and a unit more or less in a gather's sums, each in words.
fn beside_halves() -> Vec<(i64, i64, String)> {
    let mut beside = Vec::new();
    for halves in [1, 3, -1, -3] {
        for (more, side) in [(1, "above"), (-1, "below")] {
            beside.push((halves, more, format!("1-{side}-{halves}-halves")));
        }
    }
    beside
}

/// The gather of [`cornered`] from these velocities on one axis, whose sum is so many halves and more.
fn gather_beside(
    name: &str,
    on_y: bool,
    velocities: Vec<i64>,
    sum: usize,
    (halves, more): (i64, i64),
) -> Case {
    let particle = cornered();
    let found = gathered_sums(OBLONG, &particle, &velocities)[sum];
    assert_eq!(found, i128::from(halves) * HALF + i128::from(more));
    let other = vec![-512; OBLONG.nodes()];
    let velocities = if on_y {
        (other, velocities)
    } else {
        (velocities, other)
    };
    gather_field(name, OBLONG, &[particle], velocities, None)
}

/// Gathered velocities next to halves.
fn beside_gathered_velocities() -> Vec<Case> {
    let mut cases = Vec::new();
    for (entry, on_y) in [("vx", false), ("vy", true)] {
        for (halves, more, words) in beside_halves() {
            let mut velocities = plane(0, 0, 128 * halves);
            velocities[OBLONG.index(2, 1)] += more;
            let name = format!("{entry}-{words}");
            let about = (halves, more);
            cases.push(gather_beside(&name, on_y, velocities, 0, about));
        }
    }
    cases
}

/// Gathered entries of B next to halves. The node to the left and below is 95 away and weighs 1; that to
/// the right of it, or above it, is 33 away and weighs 3969: 95·23438 − 33·3969·17 is 1.
fn beside_gathered_b() -> Vec<Case> {
    let mut cases = Vec::new();
    for (entry, on_y, sum, (i, j)) in [
        ("Bxx", false, 1, (4, 1)),
        ("Bxy", false, 2, (2, 3)),
        ("Byx", true, 1, (4, 1)),
        ("Byy", true, 2, (2, 3)),
    ] {
        for (halves, more, words) in beside_halves() {
            let rise = 8 * halves;
            let (a, b) = if sum == 1 { (rise, 0) } else { (0, rise) };
            let mut velocities = plane(a, b, 100);
            velocities[OBLONG.index(2, 1)] -= 23_438 * more;
            velocities[OBLONG.index(i, j)] -= 17 * more;
            let name = format!("{entry}-{words}");
            let about = (halves, more);
            cases.push(gather_beside(&name, on_y, velocities, sum, about));
        }
    }
    cases
}

/// Steps that round halves at one place.
fn steps() -> Vec<Case> {
    let step = |name: String, settings: Settings, particles: &[Particle]| {
        let buffers = with_grid(marked_records(particles), OBLONG);
        case(
            format!("step/{name}"),
            Operation::Step(settings),
            buffers,
            None,
        )
    };
    let still = Settings::new(OBLONG, 0, 0);
    let resting = Particle::at_rest(8, 1022, 200, 176);
    let mut cases = Vec::new();
    for first in [1, 3, -1, -3] {
        let b @ [x, y, yx, yy] = four_halves(first).map(i128::from);
        let both = format!("of-{x}-and-{y}-halves");
        // Of a mass of 1024 at one place 2 have these velocities.
        let moving = Particle::at_rest(2, 2, 200, 176).moving(x, y);
        cases.push(step(
            format!("node-velocity-{both}"),
            still,
            &[moving, resting],
        ));
        let pulled = Settings::new(OBLONG, x, y).with_drag(128);
        cases.push(step(format!("drag-{both}"), pulled, &[resting]));
        let pulled = Settings::new(OBLONG, 128 * x, 128 * y);
        cases.push(step(format!("v-{both}"), pulled, &[resting]));
        // Half of each entry is left.
        let turning = Particle::at_rest(8, 5, 192, 128).moving(4, -6).with_b(b);
        let name = format!("B-of-{x}-{y}-{yx}-{yy}-halves");
        cases.push(step(name, still.with_drag(128), &[turning]));
    }
    cases
}

/// Runs that round halves at every step, or at most of them.
fn runs() -> Vec<Case> {
    let run = |name: String, settings: Settings, steps: i128, particles: &[Particle]| {
        let buffers = with_grid(marked_records(particles), OBLONG);
        let operation = Operation::Run(settings, steps);
        case(format!("run/{name}"), operation, buffers, None)
    };
    let resting = [
        Particle::at_rest(3, 40, 150, 100),
        Particle::at_rest(5, 7, 171, 131),
        Particle::at_rest(8, 1001, 300, 217),
    ];
    let mut cases = Vec::new();
    for (sign, way) in WAYS {
        let sign = i128::from(sign);
        let pulled = Settings::new(OBLONG, 128 * sign, -128 * sign);
        let name = format!("resting-under-half-a-unit-{way}");
        cases.push(run(name, pulled, 300, &resting));
        let b = [1023, -999, 513, -77].map(|entry| sign * entry);
        let moving = Particle::at_rest(8, 5, 250, 200)
            .moving(21 * sign, -13 * sign)
            .with_b(b);
        let halved = Settings::new(OBLONG, 0, 0).with_drag(128);
        cases.push(run(format!("halved-by-drag-{way}"), halved, 12, &[moving]));
    }
    cases
}
