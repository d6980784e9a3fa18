//! Sums over the nine nodes around a particle equal the literal sums over all nodes; those of a set's
//! parts, added one at a time, equal those of the set.

use reference::generator::Generator;
use reference::limits::RECORD_LENGTH;
use reference::particle_set::{pack_records, particles};
use reference::simulation::{run_by, step_by};
use reference::transfer::{adding_scatter_by, gather_by, scatter_by};
use reference::{adding_scatter, scatter, update, Grid, Settings, Size, Sums};

/// Two grids of as many nodes, added.
fn plus(one: &Grid, other: &Grid) -> Grid {
    fn sums<T: Copy + std::ops::Add<Output = T>>(one: &[T], other: &[T]) -> Vec<T> {
        one.iter().zip(other).map(|(&a, &b)| a + b).collect()
    }
    Grid {
        mass: sums(&one.mass, &other.mass),
        x: sums(&one.x, &other.x),
        y: sums(&one.y, &other.y),
    }
}

/// Operations on one set by both sums; every answer and buffer must agree.
fn compare(generator: &mut Generator, size: Size, count: usize, v: i128, b: i128) {
    let records = pack_records(&generator.particles(size, count, v, b));
    assert!(particles(size, &records).is_ok());
    let g = |generator: &mut Generator| generator.between(-4096, 4096) / 16;
    let settings = Settings::new(size, g(generator), g(generator))
        .with_edge(generator.edge())
        .with_drag(generator.one_of(&[0, 1, 77, 255]));
    let outcomes = [Sums::Literal, Sums::Nearby].map(|sums| {
        let mut grid = Grid::filled(size.nodes(), 3, -4, 5);
        let scattered = scatter_by(sums, size, &records, &mut grid.buffers());
        let momenta = grid.clone();
        let mut twice = grid.clone();
        let added = adding_scatter_by(sums, size, &records, &mut twice.buffers());
        assert_eq!((added, twice), (Ok(()), plus(&momenta, &momenta)));
        let updated = update(settings, &mut grid.buffers());
        let mut gathered_records = records.clone();
        let gathered = gather_by(sums, size, &mut gathered_records, &grid.x, &grid.y);
        let mut stepped_records = records.clone();
        let mut stepped_grid = Grid::zero(size.nodes());
        let stepped = step_by(
            sums,
            settings,
            &mut stepped_records,
            &mut stepped_grid.buffers(),
        );
        assert_eq!((scattered, updated), (Ok(()), Ok(())));
        assert_eq!(gathered, stepped);
        assert_eq!(
            (&gathered_records, &grid),
            (&stepped_records, &stepped_grid)
        );
        (momenta, gathered, gathered_records, grid)
    });
    assert!(outcomes[0] == outcomes[1]);
}

#[test]
fn transfers_of_small_sets() {
    let mut generator = Generator::new(10);
    for _ in 0..600 {
        let size = generator.size();
        let count = generator.between(0, 12) as usize;
        let (v, b) = (generator.between(0, 63), generator.between(0, 2047));
        compare(&mut generator, size, count, v, b);
    }
}

#[test]
fn transfers_of_crowded_small_grids() {
    let mut generator = Generator::new(11);
    for _ in 0..60 {
        let size = Size::new(generator.between(4, 7), generator.between(4, 7));
        let count = generator.between(20, 300) as usize;
        compare(&mut generator, size, count, 6, 200);
    }
}

#[test]
fn transfers_of_a_full_set() {
    let mut generator = Generator::new(12);
    compare(&mut generator, Size::new(48, 48), 4096, 3, 40);
}

/// Gather from any node velocities, not only updated ones.
#[test]
fn gather_from_any_field() {
    let mut generator = Generator::new(13);
    for _ in 0..400 {
        let size = generator.size();
        let records = pack_records(&generator.particles(size, 5, 63, 2047));
        let bound = generator.one_of(&[300, 20_000, 131_072, 131_073]);
        let mut field = || -> Vec<i64> {
            (0..size.nodes())
                .map(|_| generator.between(-bound, bound) as i64)
                .collect()
        };
        let (x, y) = (field(), field());
        let outcomes = [Sums::Literal, Sums::Nearby].map(|sums| {
            let mut records = records.clone();
            (gather_by(sums, size, &mut records, &x, &y), records)
        });
        assert_eq!(outcomes[0], outcomes[1]);
    }
}

#[test]
fn runs() {
    let mut generator = Generator::new(14);
    for _ in 0..60 {
        let size = Size::new(generator.between(4, 12), generator.between(4, 12));
        let count = generator.between(0, 20) as usize;
        let records = pack_records(&generator.particles(size, count, 2, 30));
        let steps = generator.between(0, 60);
        let settings = Settings::new(size, generator.between(-3, 3), generator.between(-3, 3))
            .with_edge(generator.edge())
            .with_drag(generator.one_of(&[0, 1, 20]));
        let outcomes = [Sums::Literal, Sums::Nearby].map(|sums| {
            let (mut records, mut grid) = (records.clone(), Grid::zero(size.nodes()));
            let answer = run_by(sums, settings, steps, &mut records, &mut grid.buffers());
            (answer, records, grid)
        });
        assert_eq!(outcomes[0], outcomes[1]);
    }
}

/// The grid of a set.
fn grid_of(size: Size, records: &[u8]) -> Grid {
    let mut grid = Grid::filled(size.nodes(), 3, -4, 5);
    scatter(size, records, &mut grid.buffers()).expect("an accepted set");
    grid
}

/// The parts added one after the other to a zero grid.
fn grid_of_parts<'a>(size: Size, parts: impl IntoIterator<Item = &'a [u8]>) -> Grid {
    let mut grid = Grid::zero(size.nodes());
    for part in parts {
        adding_scatter(size, part, &mut grid.buffers()).expect("a part of an accepted set");
    }
    grid
}

/// Sets of some particles, the largest mass among them, and the set that has no record.
fn sets(generator: &mut Generator) -> Vec<(Size, Vec<u8>)> {
    let mut sets = Vec::new();
    for (count, v, b) in [(0, 0, 0), (1, 63, 2047), (5, 20, 300), (9, 63, 2047)] {
        for _ in 0..6 {
            let size = Size::new(generator.between(4, 9), generator.between(4, 9));
            sets.push((size, generator.particles(size, count, v, b)));
        }
    }
    let size = Size::new(5, 4);
    let mut heaviest = generator.particles(size, 129, 63, 2047);
    for (k, p) in heaviest.iter_mut().enumerate() {
        (p.x, p.y) = (64 + k as i128 % 2, 64);
        p.mass = if k < 128 { 1023 } else { 128 };
    }
    sets.push((size, heaviest));
    let pack = |(size, set): (Size, Vec<_>)| (size, pack_records(&set));
    sets.into_iter().map(pack).collect()
}

#[test]
fn two_parts_in_either_order() {
    for (size, records) in sets(&mut Generator::new(15)) {
        let whole = grid_of(size, &records);
        for cut in (0..=records.len()).step_by(RECORD_LENGTH) {
            let (first, last) = records.split_at(cut);
            assert_eq!(grid_of_parts(size, [first, last]), whole);
            assert_eq!(grid_of_parts(size, [last, first]), whole);
        }
    }
}

/// Every order of the numbers below this one.
fn orders(count: usize) -> Vec<Vec<usize>> {
    if count == 0 {
        return vec![Vec::new()];
    }
    let with_last = |order: Vec<usize>| {
        (0..count).map(move |place| {
            let mut order = order.clone();
            order.insert(place, count - 1);
            order
        })
    };
    orders(count - 1).into_iter().flat_map(with_last).collect()
}

#[test]
fn parts_in_every_order() {
    assert_eq!(orders(4).len(), 24);
    let mut generator = Generator::new(16);
    for (size, records) in sets(&mut generator) {
        let whole = grid_of(size, &records);
        for count in 1..=4 {
            let parts = generator.parts(&records, count);
            for order in orders(count) {
                let ordered = order.iter().map(|&part| &parts[part][..]);
                assert_eq!(grid_of_parts(size, ordered), whole, "{order:?}");
            }
        }
    }
}

/// What an adding scatter leaves can be added to and updated.
#[test]
fn after_adding() {
    let mut generator = Generator::new(17);
    let mut added = 0;
    for _ in 0..20 {
        for (size, records) in sets(&mut generator) {
            let heaviest = generator.one_of(&[1, 1 << 30, 1 << 42, 1 << 43]);
            let mut grid = Grid::zero(size.nodes());
            for node in 0..size.nodes() {
                let held = generator.present_node(heaviest);
                (grid.mass[node], grid.x[node], grid.y[node]) = held;
            }
            let present = grid.clone();
            let answer = adding_scatter(size, &records, &mut grid.buffers());
            match answer.map_err(|refusal| refusal.number) {
                Ok(()) => assert_eq!(grid, plus(&present, &grid_of(size, &records))),
                Err(number) => {
                    assert_eq!((number, &grid), (21, &present));
                    continue;
                }
            }
            added += 1;
            let left = grid.clone();
            assert_eq!(adding_scatter(size, &[], &mut grid.buffers()), Ok(()));
            assert_eq!(grid, left);
            let gravity = |generator: &mut Generator| generator.one_of(&[-4096, 7, 4096]);
            let settings = Settings::new(size, gravity(&mut generator), gravity(&mut generator));
            assert_eq!(update(settings, &mut grid.buffers()), Ok(()));
        }
    }
    assert!(added > 100, "only {added} were accepted");
}
