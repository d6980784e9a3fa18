//! Document 01's examples, starred and not, with document 02's rounding; the printed one with its header,
//! motion and marks.

use reference::particle_set::{pack_records, particles};
use reference::{check_set, program, scatter, step, totals, update, weights};
use reference::{Grid, Particle, Refusal, Settings, Size, Totals};

const SMALL: Size = Size { nx: 4, ny: 4 };

/// The particles after one step on 4 by 4 nodes with gravity gx, and the grid.
fn after_step(start: &[Particle], gx: i128) -> (Vec<Particle>, Grid) {
    let mut records = pack_records(start);
    let mut grid = Grid::filled(SMALL.nodes(), 99, -98, 97);
    step(
        Settings::new(SMALL, gx, 0),
        &mut records,
        &mut grid.buffers(),
    )
    .unwrap();
    (particles(SMALL, &records).unwrap(), grid)
}

fn lone() -> Particle {
    Particle::at_rest(1, 1, 64, 64)
}

#[test]
fn weights_of_three_offsets() {
    assert_eq!(weights(0), Ok([1024, 6144, 1024]));
    assert_eq!(weights(-32), Ok([4096, 4096, 0]));
    assert_eq!(weights(31), Ok([1, 4222, 3969]));
}

#[test]
fn places_on_four_nodes() {
    let answer = |x| check_set(SMALL, &Particle::at_rest(0, 1, x, 64).pack());
    assert_eq!(answer(32), Ok(1));
    assert_eq!(answer(31), Err(Refusal::at(7, 0)));
    assert_eq!(answer(159), Ok(1));
    assert_eq!(answer(160), Err(Refusal::at(7, 0)));
}

#[test]
fn lone_particle_under_gravity() {
    for (gx, vx) in [
        (127, 0),
        (128, 0),
        (129, 1),
        (384, 2),
        (640, 2),
        (-127, 0),
        (-128, 0),
        (-129, -1),
        (-384, -2),
        (-640, -2),
    ] {
        let (after, _) = after_step(&[lone()], gx);
        let expected = Particle::at_rest(1, 1, 64 + vx, 64).moving(vx, 0);
        assert_eq!(after, [expected]);
    }
}

#[test]
fn lone_particle_keeps_its_b() {
    let start = lone().with_b([1024, 0, 0, 0]);
    assert_eq!(after_step(&[start], 0).0, [start]);
}

#[test]
fn two_at_one_place_come_to_rest() {
    let second = Particle {
        identifier: 2,
        ..lone()
    };
    let (after, _) = after_step(&[lone().moving(1, 0), second.moving(-1, 0)], 0);
    assert_eq!(after, [lone(), second]);
}

#[test]
fn masses_one_and_two_at_one_place() {
    let heavy = Particle {
        identifier: 2,
        mass: 2,
        ..lone()
    };
    let (after, grid) = after_step(&[lone().moving(1, 0), heavy], 0);
    assert_eq!(after, [lone(), heavy]);
    for (node, &mass) in grid.mass.iter().enumerate() {
        let velocity = if mass > 0 { 85 } else { 0 };
        assert_eq!((grid.x[node], grid.y[node]), (velocity, 0));
    }
    assert_eq!(grid.mass.iter().filter(|&&mass| mass > 0).count(), 9);
}

#[test]
fn printed_program_example() {
    let input = [
        0x10, 0x40, 0x00, 0x00, 0x00, 0x00, 0x08, 0x00, 0x20, 0x00, 0x00, 0x00, 0x07, 0x00, 0x81,
        0x00, 0x10, 0x01, 0xFE, 0x00, 0x00, 0x00, 0x00, 0x00, 0x00, 0x00,
    ];
    let output = "done 1 refusal 0 at 0\n\
                  mass 2 px 6 py -4 spin -640 motion 26624 marks 0\n\
                  7 2 67 62 3 -2 0 0 0 0 0\n";
    assert_eq!(program(&input).as_bytes(), output.as_bytes());
}

#[test]
fn program_on_refused_and_empty_files() {
    assert_eq!(program(&[]), "refused 1 at 0\n");
    assert_eq!(program(&[0xFF; 10]), "refused 1 at 0\n");
    assert_eq!(program(&[0xFF; 11]), "refused 2 at 0\n");
    let empty = [0x10, 0x40, 0, 0, 0, 0, 0, 0, 0x60, 0, 0];
    assert_eq!(
        program(&empty),
        "done 3 refusal 0 at 0\nmass 0 px 0 py 0 spin 0 motion 0 marks 0\n"
    );
}

/// "Dividing with truncation", "adding a half and flooring" and halves away from zero give other numbers
/// here.
#[test]
fn node_velocity_rounds_halves_to_the_even_neighbour() {
    for (momentum, velocity) in [
        (1, 0),
        (2, 0),
        (3, 1),
        (5, 1),
        (6, 2),
        (7, 2),
        (9, 2),
        (10, 2),
        (11, 3),
        (14, 4),
    ] {
        let mut grid = Grid::filled(SMALL.nodes(), 1, momentum, -momentum);
        update(Settings::new(SMALL, 0, 0), &mut grid.buffers()).unwrap();
        let expected = Grid::filled(SMALL.nodes(), 1, velocity, -velocity);
        assert_eq!(grid, expected);
    }
}

/// A pure turn keeps its sense: the node to the right moves up where Byx is above 0.
#[test]
fn b_is_not_transposed() {
    let turning = lone().with_b([0, -1024, 1024, 0]);
    let mut grid = Grid::zero(SMALL.nodes());
    scatter(SMALL, &turning.pack(), &mut grid.buffers()).unwrap();
    let (right, above) = (SMALL.index(2, 1), SMALL.index(1, 2));
    let weight = 1024 * 6144;
    assert_eq!((grid.x[right], grid.y[right]), (0, weight * 1024 * 64));
    assert_eq!((grid.x[above], grid.y[above]), (-weight * 1024 * 64, 0));
    assert_eq!(after_step(&[turning], 0).0, [turning]);
}

/// B is gathered with the offsets of the place before the move.
#[test]
fn b_is_gathered_from_the_old_place() {
    let start = lone().moving(5, 7).with_b([1024, 512, -256, 128]);
    let (after, _) = after_step(&[start], 0);
    assert_eq!(
        after,
        [Particle {
            x: 69,
            y: 71,
            ..start
        }]
    );
}

/// Sums worked out by hand: 3·(100·4 − 50·(−2) + 30 − 20) and 5·(60·0 − 90·1 + (−7) − 8).
#[test]
fn totals_by_hand() {
    let records = pack_records(&[
        Particle::at_rest(1, 3, 100, 50)
            .moving(-2, 4)
            .with_b([10, 20, 30, 40])
            .with_marks(250),
        Particle::at_rest(2, 5, 60, 90)
            .moving(1, 0)
            .with_b([9, 8, -7, 6])
            .with_marks(13),
    ]);
    let expected = Totals {
        mass: 8,
        px: -6 + 5,
        py: 12,
        angular_momentum: 1530 - 525,
        motion: 3 * (1024 * 20 + 3000) + 5 * (1024 + 230),
        marks: 250 + 13,
    };
    assert_eq!(totals(SMALL, &records), Ok(expected));
    assert_eq!(totals(SMALL, &[]), Ok(Totals::default()));
}

/// Massless nodes get no gravity.
#[test]
fn gravity_leaves_massless_nodes() {
    let (_, grid) = after_step(&[lone()], 100);
    for (node, &mass) in grid.mass.iter().enumerate() {
        assert_eq!(grid.x[node], if mass > 0 { 100 } else { 0 });
    }
}
