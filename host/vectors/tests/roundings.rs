//! What the cases round, by exact fractions: everything to nearest and halves to the even neighbour; and
//! at each place halves of both signs, and numbers next to them.

use std::collections::BTreeSet;

use vectors::roundings::{roundings, Place, Rounding};
use vectors::{cases, Case};

#[test]
fn to_nearest_and_halves_to_the_even_neighbour() {
    for case in cases() {
        for rounding in roundings(&case) {
            let Rounding {
                numerator,
                divisor,
                nearest,
                ..
            } = rounding;
            let error = 2 * (divisor * nearest - numerator);
            let name = &case.name;
            assert!(error.abs() <= divisor, "{name}: {rounding:?}");
            let even = nearest % 2 == 0;
            assert!(error.abs() < divisor || even, "{name}: {rounding:?}");
        }
    }
}

/// A place with its axis or entry, the sign of a number of halves and whether its floor is even.
type Kind = (Place, usize, i128, bool);

/// Every kind.
fn kinds() -> BTreeSet<Kind> {
    let entries = [
        (Place::NodeVelocity, 2),
        (Place::Drag, 2),
        (Place::Velocity, 2),
        (Place::Affine, 4),
    ];
    let mut kinds = BTreeSet::new();
    for (place, count) in entries {
        for entry in 0..count {
            for sign in [-1, 1] {
                kinds.extend([true, false].map(|even| (place, entry, sign, even)));
            }
        }
    }
    kinds
}

/// The kinds of halves, or of numbers so much beside them, that calls of these operations round.
fn seen(operations: [&str; 2], beside: i128) -> BTreeSet<Kind> {
    let chosen = |case: &Case| {
        let group = case.name.split('/').next();
        group.is_some_and(|group| operations.contains(&group))
    };
    let kind = |rounding: &Rounding| {
        let halves = rounding.halves(beside)?;
        let even = (halves - 1) / 2 % 2 == 0;
        Some((rounding.place, rounding.entry, halves.signum(), even))
    };
    let mut seen = BTreeSet::new();
    for case in cases().iter().filter(|case| chosen(case)) {
        seen.extend(roundings(case).iter().filter_map(kind));
    }
    seen
}

#[test]
fn halves_at_every_place() {
    assert_eq!(seen(["update", "gather"], 0), kinds());
    assert_eq!(seen(["step", "run"], 0), kinds());
}

#[test]
fn beside_halves_at_every_place() {
    for beside in [-1, 1] {
        assert_eq!(seen(["update", "gather"], beside), kinds());
    }
}
