//! Check a set, totals.

use reference::limits::RECORD_LENGTH;
use reference::particle_set::pack_records;
use reference::{Particle, Size};

use super::{accepted_sets, bytes, case, copies, differing_marks, heaviest, lone, marked};
use super::{marked_records, printed, refused_sets, REFUSED_SIZES, SMALL};
use crate::{Case, Operation};

pub fn cases() -> Vec<Case> {
    let mut cases = common_cases("check-set", Operation::CheckSet);
    cases.extend(place_cases());
    cases.extend(common_cases("totals", Operation::Totals));
    cases.extend(totals_cases());
    cases.extend(totals_of_marks());
    cases
}

/// What check a set and totals share.
fn common_cases(name: &str, operation: fn(Size) -> Operation) -> Vec<Case> {
    let mut cases = Vec::new();
    for (size_name, size) in REFUSED_SIZES {
        // The length is refused only after the size.
        let buffers = bytes([0xA5; RECORD_LENGTH - 1]);
        let stated = Some((2, 0));
        cases.push(case(
            format!("{name}/{size_name}"),
            operation(size),
            buffers,
            stated,
        ));
    }
    for (set_name, records, stated) in refused_sets() {
        let buffers = bytes(records);
        cases.push(case(
            format!("{name}/{set_name}"),
            operation(SMALL),
            buffers,
            Some(stated),
        ));
    }
    for (set_name, records) in accepted_sets() {
        let buffers = bytes(records);
        cases.push(case(
            format!("{name}/{set_name}"),
            operation(SMALL),
            buffers,
            None,
        ));
    }
    cases
}

/// Places at the edges of the smallest, a narrow and the largest grid.
fn place_cases() -> Vec<Case> {
    let mut cases = Vec::new();
    for (nx, ny) in [(4, 4), (4, 48), (48, 4), (48, 48)] {
        let (right, top) = (64 * (nx - 1) - 33, 64 * (ny - 1) - 33);
        for (x, y) in [
            (32, 32),
            (31, 32),
            (32, 31),
            (right, top),
            (right + 1, top),
            (right, top + 1),
        ] {
            let accepted = (32..=right).contains(&x) && (32..=top).contains(&y);
            let stated = (!accepted).then_some((7, 0));
            let name = format!("check-set/{nx}-by-{ny}-x-{x}-y-{y}");
            let record = marked(Particle::at_rest(1, 1, x, y)).pack();
            let operation = Operation::CheckSet(Size::new(nx, ny));
            cases.push(case(name, operation, bytes(record), stated));
        }
    }
    cases
}

fn totals_cases() -> Vec<Case> {
    let largest = Size::new(48, 48);
    let corner = Particle::at_rest(0, 1, 2975, 2975);
    let totals = |name: &str, particles: &[Particle]| {
        let name = format!("totals/{name}");
        let buffers = bytes(marked_records(particles));
        case(name, Operation::Totals(largest), buffers, None)
    };
    let turning = |identifier, b: i128| lone(identifier).with_b([0, -b, b, 0]);
    vec![
        totals("spin-of-b-alone", &[turning(1, 1024), turning(2, 2047)]),
        totals("shear-has-no-spin", &[lone(1).with_b([5, 700, 700, -9])]),
        totals(
            "largest-spin",
            &heaviest(corner.moving(-63, 63).with_b([0, -2047, 2047, 0])),
        ),
        totals(
            "smallest-spin",
            &heaviest(corner.moving(63, -63).with_b([0, 2047, -2047, 0])),
        ),
        totals("largest-momentum", &heaviest(corner.moving(63, 63))),
        totals("smallest-momentum", &heaviest(corner.moving(-63, -63))),
        totals(
            "motion-without-momentum",
            &[lone(1).moving(5, -3), lone(2).moving(-5, 3)],
        ),
        totals("motion-at-rest-of-b-alone", &[turning(1, 3)]),
        totals(
            "motion-of-each-entry",
            &[
                lone(1).moving(1, 0),
                lone(2).moving(0, 4),
                lone(3).with_b([9, 0, 0, 0]),
                lone(4).with_b([0, 70, 0, 0]),
                lone(5).with_b([0, 0, -500, 0]),
                lone(6).with_b([0, 0, 0, -2000]),
            ],
        ),
        totals(
            "largest-motion",
            &heaviest(corner.moving(-63, 63).with_b([2047, -2047, 2047, -2047])),
        ),
        totals("no-motion", &[lone(3), lone(8)]),
    ]
}

/// Sets with these marks and no others.
fn totals_of_marks() -> Vec<Case> {
    let totals = |name: &str, particles: &[Particle]| {
        let name = format!("totals/{name}");
        let buffers = bytes(pack_records(particles));
        let operation = Operation::Totals(Size::new(8, 9));
        case(name, operation, buffers, None)
    };
    let after = Particle {
        x: 67,
        y: 62,
        ..printed()
    };
    let light = Particle {
        mass: 32,
        ..lone(0).moving(-9, 4)
    };
    let most = copies(4096, light);
    let most: Vec<Particle> = most.into_iter().map(|p| p.with_marks(u8::MAX)).collect();
    let one = differing_marks()[2];
    vec![
        totals("printed", &[after]),
        totals("marks-of-one", &[one]),
        totals("marks-that-differ", &differing_marks()),
        totals("no-marks", &differing_marks().map(|p| p.with_marks(0))),
        totals("most-marks", &most),
    ]
}
