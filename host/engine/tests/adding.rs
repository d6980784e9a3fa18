//! Sets laid on one after the other, and the nodes that none is added to.

use engine::RECORD_LENGTH;
use engine::{adding_scatter, scatter, update, write_record};
use engine::{Edge, GridBuffers, Limit, Particle, Refusal, Settings, Size};

const SIZE: Size = Size { nx: 5, ny: 7 };
const NODES: usize = 5 * 7;
const COUNT: usize = 6;

/// Masses and momenta of all nodes.
#[derive(Clone, Debug, PartialEq)]
struct Grid {
    mass: [u64; NODES],
    x: [i64; NODES],
    y: [i64; NODES],
}

impl Grid {
    /// Nodes that all hold the same.
    fn filled(mass: u64, x: i64, y: i64) -> Self {
        Grid {
            mass: [mass; NODES],
            x: [x; NODES],
            y: [y; NODES],
        }
    }

    fn buffers(&mut self) -> GridBuffers<'_> {
        GridBuffers {
            mass: &mut self.mass,
            x: &mut self.x,
            y: &mut self.y,
        }
    }

    /// The grid of a set.
    fn of(records: &[u8]) -> Self {
        let mut grid = Grid::filled(9, 8, 7);
        scatter(SIZE, records, &mut grid.buffers()).expect("an accepted set");
        grid
    }

    fn add(&mut self, records: &[u8]) -> Result<(), Refusal> {
        adding_scatter(SIZE, records, &mut self.buffers())
    }

    /// The grid refuses a set at this node, and is left as it was.
    fn refuses(mut self, records: &[u8], limit: Limit, place: usize) {
        let before = self.clone();
        assert_eq!(self.add(records), Err(Refusal { limit, place }));
        assert_eq!(self, before);
    }
}

/// Particles near each other, all different.
fn records() -> [u8; COUNT * RECORD_LENGTH] {
    let mut records = [0; COUNT * RECORD_LENGTH];
    for (k, record) in (0..).zip(records.chunks_exact_mut(RECORD_LENGTH)) {
        let particle = Particle {
            identifier: 3 * k,
            mass: 1000 - 7 * u64::from(k),
            x: 100 + 13 * u64::from(k),
            y: 250 - 9 * u64::from(k),
            vx: 63 - 20 * i64::from(k),
            vy: 5 * i64::from(k) - 60,
            bxx: 2047,
            bxy: -300,
            byx: 41 * i64::from(k),
            byy: -2047,
            marks: 255 - 50 * k as u8,
        };
        write_record(&particle, record).expect("a particle in range");
    }
    records
}

#[test]
fn two_parts() {
    let records = records();
    for cut in 0..=COUNT {
        let (first, last) = records.split_at(cut * RECORD_LENGTH);
        for parts in [[first, last], [last, first]] {
            let mut grid = Grid::filled(0, 0, 0);
            for part in parts {
                assert_eq!(grid.add(part), Ok(()));
            }
            assert_eq!(grid, Grid::of(&records), "{cut}");
        }
    }
}

#[test]
fn one_record_at_a_time() {
    let records = records();
    let parts = || records.chunks_exact(RECORD_LENGTH);
    let orders: [Vec<&[u8]>; 2] = [parts().collect(), parts().rev().collect()];
    for order in orders {
        let mut grid = Grid::filled(0, 0, 0);
        for part in order {
            assert_eq!(grid.add(part), Ok(()));
        }
        assert_eq!(grid, Grid::of(&records));
    }
}

/// At every node, with a set that reaches some of them and with one that has no record.
#[test]
fn refused_nodes() {
    let (records, shares) = (records(), Grid::of(&records()));
    for node in 0..NODES {
        for set in [&records[..], &[]] {
            let with = |mass, x, y| {
                let mut grid = Grid::filled(3, 5, -4);
                (grid.mass[node], grid.x[node], grid.y[node]) = (mass, x, y);
                grid
            };
            let refused = |mass, x, y| with(mass, x, y).refuses(set, Limit::PresentNode, node);
            refused((1 << 43) + 1, 0, 0);
            refused(u64::MAX, 0, 0);
            for mass in [0, 3, 1 << 42] {
                let most = 457_536 * mass as i64;
                assert_eq!(with(mass, most, -most).add(set), Ok(()));
                assert_eq!(with(mass, -most, most).add(set), Ok(()));
                refused(mass, most + 1, 0);
                refused(mass, 0, -most - 1);
                refused(mass, i64::MIN, 0);
                refused(mass, 0, i64::MAX);
            }
        }
        let full = (1 << 43) - shares.mass[node];
        let mut grid = Grid::filled(3, 5, -4);
        grid.mass[node] = full;
        assert_eq!(grid.clone().add(&records), Ok(()));
        grid.mass[node] = full + 1;
        let limit = if shares.mass[node] > 0 {
            Limit::AddedMass
        } else {
            Limit::PresentNode
        };
        grid.refuses(&records, limit, node);
    }
}

/// What is left as large and as fast as it may be can be updated.
#[test]
fn updated() {
    let (records, shares) = (records(), Grid::of(&records()));
    let mut grid = Grid::filled(0, 0, 0);
    for node in 0..NODES {
        grid.mass[node] = (1 << 43) - shares.mass[node];
        grid.x[node] = 457_536 * grid.mass[node] as i64;
        grid.y[node] = -grid.x[node];
    }
    assert_eq!(grid.add(&records), Ok(()));
    assert_eq!(grid.mass, [1 << 43; NODES]);
    let settings = Settings {
        size: SIZE,
        gx: 4096,
        gy: -4096,
        edge: Edge::Open,
        drag: 0,
    };
    assert_eq!(update(settings, &mut grid.buffers()), Ok(()));
}
