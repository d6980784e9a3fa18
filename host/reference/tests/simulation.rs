//! Steps, runs and lists of calls.

use reference::conservation::{Ledger, NodeChanges};
use reference::generator::Generator;
use reference::particle_set::{pack_records, particles};
use reference::simulation::run_by;
use reference::{gather, run, scatter, step, update};
use reference::{Edge, Grid, Particle, Refusal, RunAnswer, Settings, Size, Sums};

fn lone(x: i128, vx: i128) -> Particle {
    Particle::at_rest(40, 3, x, 100).moving(vx, 0)
}

/// Masses and updated velocities of the set.
fn updated_grid(settings: Settings, records: &[u8]) -> Grid {
    let mut grid = Grid::zero(settings.size.nodes());
    scatter(settings.size, records, &mut grid.buffers()).unwrap();
    update(settings, &mut grid.buffers()).unwrap();
    grid
}

#[test]
fn a_step_is_scatter_update_gather() {
    let mut generator = Generator::new(20);
    for _ in 0..200 {
        let size = Size::new(generator.between(4, 9), generator.between(4, 9));
        let settings = Settings::new(size, generator.between(-300, 300), 40)
            .with_edge(generator.edge())
            .with_drag(generator.between(0, 255));
        let mut records = pack_records(&generator.particles(size, 6, 20, 500));
        let expected_grid = updated_grid(settings, &records);
        let mut expected = records.clone();
        let gathered = gather(size, &mut expected, &expected_grid.x, &expected_grid.y);
        let mut grid = Grid::filled(size.nodes(), 77, i64::MIN, i64::MAX);
        let answer = step(settings, &mut records, &mut grid.buffers());
        assert_eq!((answer, records, grid), (gathered, expected, expected_grid));
    }
}

/// A stopped step leaves the records and the grid of the step tried.
#[test]
fn a_step_stopped_by_13_14_15() {
    let size = Size::new(8, 8);
    let spreading = [2047, 0, 0, 0];
    let apart = [
        Particle::at_rest(1, 9, 176, 192)
            .moving(-63, 0)
            .with_b(spreading),
        Particle::at_rest(2, 9, 208, 192)
            .moving(63, 0)
            .with_b(spreading),
    ];
    let cases: [(&[Particle], i128, Refusal); 4] = [
        (&[lone(200, 63)], 128, Refusal::at(13, 0)),
        (&apart, 0, Refusal::at(14, 0)),
        (&[lone(415, 1)], 0, Refusal::at(15, 0)),
        (
            &[
                Particle {
                    identifier: 3,
                    ..lone(200, 0)
                },
                lone(33, -2),
            ],
            0,
            Refusal::at(15, 1),
        ),
    ];
    for (start, gx, refusal) in cases {
        let settings = Settings::new(size, gx, 0);
        let before = pack_records(start);
        let (mut records, mut grid) = (before.clone(), Grid::filled(64, 1, 2, 3));
        let answer = step(settings, &mut records, &mut grid.buffers());
        assert_eq!((answer, &records), (Err(refusal), &before));
        assert_eq!(grid, updated_grid(settings, &before));
        let mut run_grid = Grid::filled(64, 1, 2, 3);
        let answer = run(settings, 9, &mut records, &mut run_grid.buffers());
        let stopped = RunAnswer {
            completed: 0,
            refusal: Some(refusal),
        };
        assert_eq!((answer, records, run_grid), (stopped, before, grid));
    }
}

/// From x = 100 with velocity 7 on 8 nodes (32 to 415), the 46th step would leave the grid.
#[test]
fn a_run_stopped_at_its_46th_step() {
    let settings = Settings::new(Size::new(8, 8), 0, 0);
    let mut records = lone(100, 7).pack();
    let mut grid = Grid::zero(64);
    let answer = run(settings, 100, &mut records, &mut grid.buffers());
    let stopped = RunAnswer {
        completed: 45,
        refusal: Some(Refusal::at(15, 0)),
    };
    assert_eq!(answer, stopped);
    assert_eq!(Particle::unpack(&records), lone(415, 7));
    assert_eq!(grid, updated_grid(settings, &records));
    let mut records = lone(100, 7).pack();
    let answer = run(settings, 45, &mut records, &mut grid.buffers());
    assert_eq!((answer.completed, answer.refusal), (45, None));
    assert_eq!(grid, updated_grid(settings, &lone(408, 7).pack()));
}

/// More than a half grows: under 129/256 a lone particle gains one unit per step, up to 63.
#[test]
fn a_run_stopped_by_its_velocity() {
    let settings = Settings::new(Size::new(48, 4), 129, 0);
    let mut records = lone(64, 0).pack();
    let answer = run(
        settings,
        10_000,
        &mut records,
        &mut Grid::zero(192).buffers(),
    );
    assert_eq!(
        (answer.completed, answer.refusal),
        (63, Some(Refusal::at(13, 0)))
    );
    assert_eq!(Particle::unpack(&records), lone(64 + 63 * 32, 63));
}

/// A half goes to the even neighbour: under 128/256 a lone particle rests, and one whose velocity is odd
/// gains or loses one unit, once.
#[test]
fn a_run_under_half_a_unit() {
    for sign in [1, -1] {
        let settings = Settings::new(Size::new(48, 4), 128 * sign, -128 * sign);
        for (vx, vx_after, vy, vy_after) in [(0, 0, 0, 0), (1, 2, 0, 0), (2, 2, 1, 0)] {
            let start = Particle::at_rest(40, 3, 1500, 100);
            let mut records = start.moving(sign * vx, sign * vy).pack();
            let mut grid = Grid::zero(192);
            let answer = run(settings, 500, &mut records, &mut grid.buffers());
            assert_eq!((answer.completed, answer.refusal), (500, None));
            let after = Particle {
                x: start.x + 500 * sign * vx_after,
                ..start.moving(sign * vx_after, sign * vy_after)
            };
            assert_eq!(Particle::unpack(&records), after);
        }
    }
}

#[test]
fn a_run_of_no_steps_touches_nothing() {
    let settings = Settings::new(Size::new(8, 8), 4096, 0);
    let before = lone(415, 63).pack();
    let (mut records, mut grid) = (before, Grid::filled(64, 5, 6, 7));
    let answer = run(settings, 0, &mut records, &mut grid.buffers());
    assert_eq!((answer.completed, answer.refusal), (0, None));
    assert_eq!((records, grid), (before, Grid::filled(64, 5, 6, 7)));
}

#[test]
fn an_empty_set_clears_the_grid() {
    let settings = Settings::new(Size::new(4, 4), 4096, -4096);
    let mut grid = Grid::filled(16, 5, 6, 7);
    assert_eq!(step(settings, &mut [], &mut grid.buffers()), Ok(()));
    assert_eq!(grid, Grid::zero(16));
}

#[test]
fn a_run_is_the_step_repeated() {
    let mut generator = Generator::new(21);
    for _ in 0..60 {
        let size = Size::new(generator.between(4, 12), generator.between(4, 12));
        let settings = Settings::new(size, generator.between(-4, 4), generator.between(-4, 4))
            .with_edge(generator.edge())
            .with_drag(generator.one_of(&[0, 1, 30]));
        let start = pack_records(&generator.particles(size, 8, 3, 20));
        let wanted = generator.between(0, 50);
        let (mut records, mut grid) = (start.clone(), Grid::zero(size.nodes()));
        let answer = run(settings, wanted, &mut records, &mut grid.buffers());
        let (mut stepped, mut stepped_grid) = (start, Grid::zero(size.nodes()));
        let mut expected = RunAnswer {
            completed: 0,
            refusal: None,
        };
        while expected.refusal.is_none() && (expected.completed as i128) < wanted {
            expected.refusal = step(settings, &mut stepped, &mut stepped_grid.buffers()).err();
            expected.completed += usize::from(expected.refusal.is_none());
        }
        assert_eq!((answer, records, grid), (expected, stepped, stepped_grid));
    }
}

/// Both ledgers with one more step of these particles.
fn count_step(ledgers: [&mut Ledger; 2], before: &[Particle], settings: Settings) {
    let changes = NodeChanges::of_step(before, settings);
    for ledger in ledgers {
        ledger.count_step(before, settings, changes);
    }
}

/// Every accepted set is one on the largest grid too.
const LARGEST: Size = Size { nx: 48, ny: 48 };

/// One call of a list, refused or not, on a grid of its own size, checked step by step.
fn call(generator: &mut Generator, size: Size, records: &mut [u8], ledger: &mut Ledger) {
    let refused_entry = generator.once_in(4);
    let wider = generator.between(-1, 3);
    let size = Size::new(size.nx + wider, size.ny + wider.max(0));
    let g = generator.one_of(&[0, 1, 40, 200]);
    let mut settings = Settings::new(size, generator.between(-g, g), generator.between(-g, g))
        .with_edge(generator.edge())
        .with_drag(generator.one_of(&[0, 0, 1, 9, 128, 255]));
    let mut steps = generator.between(0, 12);
    let mut grid = Grid::filled(size.nodes(), generator.bits(), -1, 1);
    if refused_entry {
        match generator.between(0, 5) {
            0 => settings.size.nx = generator.one_of(&[0, 3, 49]),
            1 => grid.y.push(0),
            2 => settings.gy = 4097,
            3 => settings.edge = Edge::new(generator.one_of(&[0, 3]), 1),
            4 => settings.drag = 256,
            _ => steps = 10_001,
        }
    }
    let mut stepped = records.to_vec();
    let answer = run_by(Sums::Nearby, settings, steps, records, &mut grid.buffers());
    for _ in 0..answer.completed {
        let before = particles(LARGEST, &stepped).unwrap();
        let mut one_step = Ledger::new(&before);
        count_step([&mut one_step, ledger], &before, settings);
        let mut grid = Grid::zero(size.nodes());
        let one = run_by(Sums::Nearby, settings, 1, &mut stepped, &mut grid.buffers());
        assert_eq!((one.completed, one.refusal), (1, None));
        let after = particles(LARGEST, &stepped).unwrap();
        one_step.check(&after).unwrap();
    }
    assert_eq!(stepped, records);
    assert!(answer.completed as i128 == steps || answer.refusal.is_some());
    assert!(!refused_entry || answer.completed == 0);
}

#[test]
fn lists_of_calls_keep_to_demand_3() {
    let mut generator = Generator::new(22);
    let mut completed = 0;
    for _ in 0..150 {
        let size = Size::new(generator.between(4, 20), generator.between(4, 20));
        let count = generator.between(0, 40) as usize;
        let (v, b) = (
            generator.one_of(&[1, 5, 63]),
            generator.one_of(&[0, 30, 2047]),
        );
        let start = generator.particles(size, count, v, b);
        let mut records = pack_records(&start);
        let mut ledger = Ledger::new(&start);
        for _ in 0..generator.between(0, 6) {
            call(&mut generator, size, &mut records, &mut ledger);
            ledger
                .check(&particles(LARGEST, &records).unwrap())
                .unwrap();
        }
        completed += ledger.completed;
    }
    assert!(completed > 500, "{completed}");
}

/// A run of at most so many steps, each checked by itself and with those before; the completed ones.
fn keeps_to_demand_3(settings: Settings, start: &[Particle], steps: usize) -> usize {
    let mut records = pack_records(start);
    let mut grid = Grid::zero(settings.size.nodes());
    let mut ledger = Ledger::new(start);
    let mut before = start.to_vec();
    for completed in 0..steps {
        let mut alone = Ledger::new(&before);
        count_step([&mut alone, &mut ledger], &before, settings);
        if step(settings, &mut records, &mut grid.buffers()).is_err() {
            return completed;
        }
        before = particles(settings.size, &records).unwrap();
        alone.check(&before).unwrap();
        ledger.check(&before).unwrap();
    }
    steps
}

/// Drags at their ends, about a half, and between.
const DRAGS: [i128; 8] = [0, 1, 2, 31, 127, 128, 254, 255];

#[test]
fn every_edge_and_drag_keeps_to_demand_3() {
    let mut generator = Generator::new(23);
    for edge in Edge::ALL {
        for drag in DRAGS {
            let mut completed = 0;
            for (nx, ny) in [(4, 5), (6, 4), (7, 9), (12, 8)] {
                let (gx, gy) = (generator.between(-90, 90), generator.between(-200, 200));
                let settings = Settings::new(Size::new(nx, ny), gx, gy)
                    .with_edge(edge)
                    .with_drag(drag);
                let start = generator.particles(settings.size, 15, 12, 400);
                completed += keeps_to_demand_3(settings, &start, 15);
            }
            assert!(completed > 0, "{edge:?} {drag}");
        }
    }
}

/// Momentum without the rim's share is far beyond its allowance: a particle of mass 1,000 that comes to
/// rest in a sticky band.
#[test]
fn node_changes_matter() {
    let start = [Particle::at_rest(5, 1000, 96, 80).moving(20, -9)];
    let settings = Settings::new(Size::new(4, 5), 0, 0).with_edge(Edge::sticky(3));
    assert_eq!(keeps_to_demand_3(settings, &start, 3), 3);
    let mut records = pack_records(&start);
    step(settings, &mut records, &mut Grid::zero(20).buffers()).unwrap();
    let mut without = Ledger::new(&start);
    without.count_step(&start, settings, NodeChanges::default());
    let after = particles(settings.size, &records).unwrap();
    assert_eq!(after, [Particle::at_rest(5, 1000, 96, 80)]);
    assert!(without.check(&after).is_err());
}
