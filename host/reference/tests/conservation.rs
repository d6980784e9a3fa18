//! The ledger of demand 3 by itself, on made-up particles: every allowance at its edge and the least
//! unit beyond, and what has to be kept.

use reference::conservation::{Ledger, NodeChanges};
use reference::particle_set::Totals;
use reference::{Grid, Particle, Settings, Size};

const MOMENTUM: &str = "momentum";
const ANGULAR: &str = "angular momentum";
const KEPT: &str = "identifiers, masses or marks";

/// Gravity on both axes; the ledger does not look at the size.
fn gravity(gx: i128, gy: i128) -> Settings {
    Settings::new(Size::new(48, 48), gx, gy)
}

/// Particles of total mass 512 whose sums of m·x and m·y are multiples of 512, so that shares,
/// torques and allowances are whole numbers.
fn start() -> [Particle; 3] {
    [
        Particle::at_rest(3, 1, 320, 160)
            .moving(5, -7)
            .with_marks(200),
        Particle::at_rest(5, 11, 64, 32)
            .with_b([1, -2, 3, -4])
            .with_marks(0),
        Particle::at_rest(9, 500, 128, 256)
            .moving(-1, 2)
            .with_marks(77),
    ]
}

/// The same particles later, elsewhere.
fn later() -> [Particle; 3] {
    let [first, second, third] = start();
    let third = Particle { x: 256, ..third };
    [first, second, third]
}

/// A ledger with these steps, whose nodes drag and rim leave.
fn ledger(start: &[Particle], steps: &[(&[Particle], Settings)]) -> Ledger {
    let mut ledger = Ledger::new(start);
    for (before, settings) in steps {
        ledger.count_step(before, *settings, NodeChanges::default());
    }
    ledger
}

/// Node changes of this much momentum and torque, times 2^34.
fn changes(x: i128, y: i128, torque: i128) -> NodeChanges {
    let momentum = [x, y];
    NodeChanges { momentum, torque }
}

/// The particles with the first one, of mass 1, changed so that the totals gain this much.
fn gained(particles: &[Particle], px: i128, py: i128, spin: i128) -> Vec<Particle> {
    let mut after = particles.to_vec();
    let first = &mut after[0];
    assert_eq!(first.mass, 1);
    first.vx += px;
    first.vy += py;
    first.byx += spin - (first.x * py - first.y * px);
    let (old, new) = (Totals::of(particles), Totals::of(&after));
    let found = (new.px - old.px, new.py - old.py);
    assert_eq!(found, (px, py));
    assert_eq!(new.angular_momentum - old.angular_momentum, spin);
    after
}

/// Whether the ledger takes what the particles gained, or which law it says they break.
fn expect(ledger: &Ledger, gain: [i128; 3], broken: Option<&str>) {
    let [px, py, spin] = gain;
    expect_of(ledger, &gained(&start(), px, py, spin), broken);
}

/// Whether the ledger takes these particles, or which law it says they break.
fn expect_of(ledger: &Ledger, after: &[Particle], broken: Option<&str>) {
    let found = ledger.check(after);
    match broken {
        None => assert_eq!(found, Ok(())),
        Some(law) => {
            let why = found.expect_err("a broken law");
            assert!(why.starts_with(law), "{why}");
        }
    }
}

/// Each gain at both edges of its allowance and one beyond, the others as gravity has them.
fn edges(ledger: &Ledger, exact: [i128; 3], allowed: [i128; 3]) {
    expect(ledger, exact, None);
    for (k, law) in [MOMENTUM, MOMENTUM, ANGULAR].into_iter().enumerate() {
        for sign in [-1, 1] {
            let mut gain = exact;
            gain[k] += sign * allowed[k];
            expect(ledger, gain, None);
            gain[k] += sign;
            expect(ledger, gain, Some(law));
        }
    }
}

/// No completed step: nothing may change.
#[test]
fn without_a_step() {
    edges(&ledger(&start(), &[]), [0, 0, 0], [0, 0, 0]);
}

/// One step: 257/512 of the mass, and the mass plus 257/512 of the sum of m·(x + y).
#[test]
fn one_step() {
    let (x, y) = (512 * 127, 512 * 251);
    let allowed = [257, 257, 512 + 257 * (x + y) / 512];
    for (gx, gy) in [(0, 0), (1, 0), (0, -1), (-4096, 4096), (37, 911)] {
        let exact = [2 * gx, 2 * gy, (x * gy - y * gx) / 256];
        let step = ledger(&start(), &[(&start(), gravity(gx, gy))]);
        edges(&step, exact, allowed);
    }
}

/// Steps of several calls: each brings its own gravity and its own places.
#[test]
fn several_steps() {
    let steps = [
        (&start()[..], gravity(3, -5)),
        (&later()[..], gravity(256, 1000)),
        (&later()[..], gravity(0, 0)),
    ];
    let (x, y) = ([512 * 127, 512 * 252, 512 * 252], 512 * 251);
    let torques = (x[0] * -5 - y * 3 + x[1] * 1000 - y * 256) / 256;
    let places: i128 = x.iter().map(|x| x + y).sum();
    let exact = [2 * 259, 2 * 995, torques];
    let allowed = [3 * 257, 3 * 257, 3 * 512 + 257 * places / 512];
    edges(&ledger(&start(), &steps), exact, allowed);
}

/// Node changes of whole numbers are counted with gravity, and the allowances stay.
#[test]
fn steps_with_node_changes() {
    let (x, y) = (512 * 127, 512 * 251);
    let allowed = [2 * 257, 2 * 257, 2 * (512 + 257 * (x + y) / 512)];
    let mut ledger = Ledger::new(&start());
    let counted = [
        (gravity(3, -5), changes(7 << 34, -(11 << 34), 13_000 << 34)),
        (gravity(0, 2), changes(-(900 << 34), 1 << 34, -(17 << 34))),
    ];
    for (settings, changes) in counted {
        ledger.count_step(&start(), settings, changes);
    }
    let torques = (x * -5 - y * 3 + x * 2) / 256;
    let exact = [6 + 7 - 900, -10 - 11 + 4 + 1, torques + 13_000 - 17];
    edges(&ledger, exact, allowed);
}

/// A mass of 1 at rest at (0, 0), of which 257/512 of momentum on each axis and a whole unit of angular
/// momentum are allowed: node changes up to these, and the least unit beyond.
#[test]
fn node_changes_in_their_unit() {
    let lone = [Particle::at_rest(1, 1, 0, 0)];
    let expect = |changes, broken| {
        let mut ledger = Ledger::new(&lone);
        ledger.count_step(&lone, gravity(0, 0), changes);
        expect_of(&ledger, &lone, broken);
    };
    for sign in [-1, 1] {
        let (most, turn) = (sign * (257 << 25), sign * (1 << 34));
        expect(changes(most, -most, turn), None);
        expect(changes(most + sign, 0, 0), Some(MOMENTUM));
        expect(changes(0, most + sign, 0), Some(MOMENTUM));
        expect(changes(0, 0, turn + sign), Some(ANGULAR));
    }
}

/// The sums over nodes by hand, on 4 by 5 nodes: node (1, 2) of mass 3 gains (−5, 7) and node (3, 0) of
/// mass 1,000 gains (2, −9); a change without mass counts for nothing.
#[test]
fn node_changes_by_hand() {
    let size = Size::new(4, 5);
    let mut before = Grid::filled(size.nodes(), 6, 40, -50);
    let (first, second, massless) = (size.index(1, 2), size.index(3, 0), size.index(2, 2));
    for (node, mass) in [(first, 3), (second, 1000), (massless, 0)] {
        before.mass[node] = mass;
    }
    let mut after = before.clone();
    for (node, x, y) in [(first, 35, -43), (second, 42, -59), (massless, 1, 2)] {
        (after.x[node], after.y[node]) = (x, y);
    }
    let torque = 3 * (64 * 7 - 128 * -5) + 1000 * (192 * -9);
    let expected = changes(-15 + 2000, 21 - 9000, torque);
    assert_eq!(NodeChanges::between(size, &before, &after), expected);
}

/// A mass of 1, where an error is a whole number of 512ths: 2·g has to be at most 257.
#[test]
fn momentum_in_512ths() {
    let lone = [Particle::at_rest(1, 1, 0, 0)];
    for sign in [-1, 1] {
        for (g, broken) in [(128, None), (129, Some(MOMENTUM))] {
            for settings in [gravity(sign * g, 0), gravity(0, sign * g)] {
                expect_of(&ledger(&lone, &[(&lone, settings)]), &lone, broken);
            }
        }
    }
}

/// A mass of 1 at (1, 0) or (0, 1): 1,024/512 less the torque has to be at most 769/512.
#[test]
fn angular_momentum_in_512ths() {
    let across = Particle::at_rest(1, 1, 1, 0);
    let above = Particle::at_rest(1, 1, 0, 1);
    for sign in [-1, 1] {
        for (g, broken) in [(128, None), (127, Some(ANGULAR))] {
            let g = sign * g;
            for (p, settings) in [(across, gravity(0, g)), (above, gravity(-g, 0))] {
                let after = gained(&[p], 0, 0, 2 * sign);
                expect_of(&ledger(&[p], &[(&[p], settings)]), &after, broken);
            }
        }
    }
}

/// Particles at rest, whose sums of momentum are all 0, and a ledger with many steps.
fn resting() -> (Vec<Particle>, Ledger) {
    let kept = [(3, 4, 20), (5, 4, 255), (9, 11, 20)];
    let set = kept.map(|(identifier, mass, marks)| {
        Particle::at_rest(identifier, mass, 100, 100).with_marks(marks)
    });
    let steps = [(&set[..], gravity(0, 0)); 100];
    (set.to_vec(), ledger(&set, &steps))
}

#[test]
fn identifiers_are_kept_in_order() {
    let (set, ledger) = resting();
    expect_of(&ledger, &set, None);
    for identifiers in [
        [5, 3, 9],
        [3, 9, 5],
        [3, 6, 9],
        [4, 5, 9],
        [3, 5, 8],
        [3; 3],
    ] {
        let mut after = set.clone();
        for (p, identifier) in after.iter_mut().zip(identifiers) {
            p.identifier = identifier;
        }
        expect_of(&ledger, &after, Some(KEPT));
    }
}

#[test]
fn masses_are_kept_in_order() {
    let (set, ledger) = resting();
    for masses in [[4, 11, 4], [11, 4, 4], [5, 3, 11], [4, 4, 10], [4, 4, 12]] {
        let mut after = set.clone();
        for (p, mass) in after.iter_mut().zip(masses) {
            p.mass = mass;
        }
        expect_of(&ledger, &after, Some(KEPT));
    }
}

/// Marks that are exchanged, or moved from one to another, keep their sum.
#[test]
fn marks_are_kept_in_order() {
    let (set, ledger) = resting();
    for marks in [
        [20, 20, 255],
        [255, 20, 20],
        [19, 255, 21],
        [21, 254, 20],
        [20, 255, 19],
        [20, 0, 20],
        [0, 0, 0],
    ] {
        let mut after = set.clone();
        for (p, marks) in after.iter_mut().zip(marks) {
            p.marks = marks;
        }
        expect_of(&ledger, &after, Some(KEPT));
    }
}

#[test]
fn records_are_kept_in_number_and_order() {
    let (set, ledger) = resting();
    for places in [
        &[][..],
        &[0, 1],
        &[1, 2],
        &[0, 2, 1],
        &[0, 1, 2, 2],
        &[0, 0, 2],
    ] {
        let after: Vec<Particle> = places.iter().map(|&k| set[k]).collect();
        expect_of(&ledger, &after, Some(KEPT));
    }
}
