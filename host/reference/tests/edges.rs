//! Drag and rim of an update: every node of a grid, drawn; drag's rounding; the velocity that 12 looks
//! at; and that open edges without drag change nothing.

use reference::edge::{OPEN, SLIP, STICKY};
use reference::generator::Generator;
use reference::particle_set::{pack_records, particles};
use reference::rounding::round_to_nearest;
use reference::transfer::after_drag;
use reference::{run, update, Edge, Grid, Particle, Refusal, Settings, Size};

/// The rims of grids drawn row by row from j = 0 up: a node keeps its velocity (`.`), loses it on one
/// axis (`x`, `y`) or on both (`o`).
const RIMS: [(Edge, &[&str]); 12] = [
    (Edge::OPEN, &["....", "....", "....", "....", "...."]),
    (Edge::sticky(1), &["oooo", "o..o", "o..o", "o..o", "oooo"]),
    (Edge::sticky(2), &["oooo", "oooo", "oooo", "oooo", "oooo"]),
    (Edge::sticky(3), &["oooo", "oooo", "oooo", "oooo", "oooo"]),
    (Edge::slip(1), &["oyyo", "x..x", "x..x", "x..x", "oyyo"]),
    (Edge::slip(2), &["oooo", "oooo", "xxxx", "oooo", "oooo"]),
    (Edge::slip(3), &["oooo", "oooo", "oooo", "oooo", "oooo"]),
    (Edge::slip(2), &["ooyoo", "ooyoo", "ooyoo", "ooyoo"]),
    (
        Edge::slip(3),
        &["oooooo", "oooooo", "oooooo", "oooooo", "oooooo"],
    ),
    (
        Edge::sticky(2),
        &[
            "ooooooo", "ooooooo", "oo...oo", "oo...oo", "ooooooo", "ooooooo",
        ],
    ),
    (
        Edge::slip(2),
        &[
            "ooyyyoo", "ooyyyoo", "xx...xx", "xx...xx", "ooyyyoo", "ooyyyoo",
        ],
    ),
    (
        Edge::slip(3),
        &[
            "oooyyooo", "oooyyooo", "oooyyooo", "xxx..xxx", "oooyyooo", "oooyyooo", "oooyyooo",
        ],
    ),
];

/// A grid whose nodes have mass 1 and velocities that differ from node to node and from axis to axis.
fn distinct(size: Size) -> Grid {
    let nodes = size.nodes() as i64;
    let mut grid = Grid::filled(size.nodes(), 1, 0, 0);
    for node in 0..nodes {
        let at = node as usize;
        (grid.x[at], grid.y[at]) = (4 * (1 + node), -4 * (1 + nodes + node));
    }
    grid
}

#[test]
fn rims_of_whole_grids() {
    for (edge, rows) in RIMS {
        let size = Size::new(rows[0].len() as i128, rows.len() as i128);
        let settings = Settings::new(size, 0, 0);
        let mut expected = distinct(size);
        update(settings, &mut expected.buffers()).unwrap();
        for (node, held) in rows.concat().chars().enumerate() {
            assert!(expected.x[node] != 0 && expected.y[node] != 0);
            let (x, y) = match held {
                '.' => (false, false),
                'x' => (true, false),
                'y' => (false, true),
                _ => (true, true),
            };
            if x {
                expected.x[node] = 0;
            }
            if y {
                expected.y[node] = 0;
            }
        }
        let mut grid = distinct(size);
        update(settings.with_edge(edge), &mut grid.buffers()).unwrap();
        assert_eq!(grid, expected, "{edge:?} on {size:?}");
    }
}

/// Slip's columns are counted by Nx and its rows by Ny: each axis by itself, at every size.
#[test]
fn bands_at_every_size() {
    for (nx, ny) in [(4, 48), (48, 4), (5, 6), (17, 23), (48, 47)] {
        let size = Size::new(nx, ny);
        for width in 1..=3 {
            let mut grid = distinct(size);
            let settings = Settings::new(size, 0, 0).with_edge(Edge::slip(width));
            update(settings, &mut grid.buffers()).unwrap();
            let kept = |velocities: &[i64]| velocities.iter().filter(|&&u| u != 0).count();
            let inner = |nodes: i128| (nodes - 2 * width).max(0);
            assert_eq!(kept(&grid.x) as i128, inner(nx) * ny);
            assert_eq!(kept(&grid.y) as i128, inner(ny) * nx);
        }
    }
}

/// u·drag/256 is rounded to nearest, at a half to the even neighbour, before it is taken off.
#[test]
fn drag_by_hand() {
    let cases = [
        (0, 131_072, 131_072),
        (1, 127, 127),
        (1, 128, 128),
        (1, 129, 128),
        (1, 383, 382),
        (1, 384, 382),
        (1, 385, 383),
        (1, 640, 638),
        (1, 641, 638),
        (64, 1, 1),
        (64, 2, 2),
        (64, 5, 4),
        (64, 6, 4),
        (64, 10, 8),
        (128, 1, 1),
        (128, 2, 1),
        (128, 3, 1),
        (128, 5, 3),
        (128, 7, 3),
        (192, 2, 0),
        (192, 6, 2),
        (255, 1, 0),
        (255, 127, 0),
        (255, 128, 0),
        (255, 129, 1),
        (255, 384, 2),
        (255, 385, 2),
        (255, 131_072, 512),
    ];
    for (drag, u, left) in cases {
        assert_eq!(after_drag(u, drag), left, "{u} under {drag}");
        assert_eq!(after_drag(-u, drag), -left, "{} under {drag}", -u);
        let size = Size::new(4, 5);
        let momentum = 4 * u as i64;
        let mut grid = Grid::filled(size.nodes(), 1, momentum, -momentum);
        let settings = Settings::new(size, 0, 0).with_drag(drag);
        update(settings, &mut grid.buffers()).unwrap();
        let expected = Grid::filled(size.nodes(), 1, left as i64, -left as i64);
        assert_eq!(grid, expected);
    }
}

/// Drag takes from the velocity after gravity: a node at rest under 200/256 is left with 100 at drag 128.
#[test]
fn drag_comes_after_gravity() {
    let size = Size::new(5, 4);
    let mut grid = Grid::filled(size.nodes(), 7, 0, 0);
    let settings = Settings::new(size, 200, -60).with_drag(128);
    update(settings, &mut grid.buffers()).unwrap();
    assert_eq!(grid, Grid::filled(size.nodes(), 7, 100, -30));
}

/// A velocity never grows or turns round, and is within a half of what the fraction leaves.
#[test]
fn drag_at_every_number() {
    for drag in 0..=255 {
        for u in (-3_000..=3_000).chain([131_071, 131_072]) {
            let left = after_drag(u, drag);
            assert!(left.abs() <= u.abs() && left * u >= 0);
            assert!((256 * left - u * (256 - drag)).abs() <= 128);
        }
    }
}

/// 12 looks at the velocity after gravity, whatever drag and rim would make of it.
#[test]
fn limit_12_comes_before_drag_and_rim() {
    let size = Size::new(4, 5);
    for (edge, drag) in [
        (Edge::OPEN, 255),
        (Edge::sticky(3), 0),
        (Edge::slip(3), 128),
        (Edge::sticky(1), 1),
    ] {
        for node in [0, 3, 6, 19] {
            let settings = Settings::new(size, 2, -1).with_edge(edge).with_drag(drag);
            for (x, y) in [(4 * 131_071, 0), (0, -4 * 131_072)] {
                let mut grid = Grid::filled(size.nodes(), 1, 0, 0);
                (grid.x[node], grid.y[node]) = (x, y);
                let before = grid.clone();
                let answer = update(settings, &mut grid.buffers());
                assert_eq!((answer, &grid), (Err(Refusal::at(12, node)), &before));
                (grid.x[node], grid.y[node]) = (x - x.signum() * 4, y - y.signum() * 4);
                assert_eq!(update(settings, &mut grid.buffers()), Ok(()));
            }
        }
    }
}

/// With open edges and no drag a node's velocity is momentum/(4M) rounded, plus gravity, and nothing
/// else.
#[test]
fn open_edges_without_drag_change_nothing() {
    let mut generator = Generator::new(30);
    for _ in 0..300 {
        let size = generator.size();
        let (gx, gy) = (
            generator.between(-4096, 4096),
            generator.between(-4096, 4096),
        );
        let mut grid = Grid::zero(size.nodes());
        for node in 0..size.nodes() {
            let mass = generator.between(0, 1 << 20);
            let mut momentum = || mass * generator.between(-40_000, 40_000);
            (grid.x[node], grid.y[node]) = (momentum() as i64, momentum() as i64);
            grid.mass[node] = mass as u64;
        }
        let before = grid.clone();
        update(Settings::new(size, gx, gy), &mut grid.buffers()).unwrap();
        let velocity = |mass: u64, momentum: i64, g: i128| match i128::from(mass) {
            0 => 0,
            mass => round_to_nearest(momentum.into(), 4 * mass) + g,
        };
        for node in 0..size.nodes() {
            let mass = before.mass[node];
            assert_eq!(i128::from(grid.x[node]), velocity(mass, before.x[node], gx));
            assert_eq!(i128::from(grid.y[node]), velocity(mass, before.y[node], gy));
        }
        assert_eq!(grid.mass, before.mass);
    }
}

/// The particle after a run, with the completed steps and the number of what stopped it.
fn ran(settings: Settings, steps: i128, start: Particle) -> (usize, u32, Particle) {
    let mut records = pack_records(&[start]);
    let mut grid = Grid::zero(settings.size.nodes());
    let answer = run(settings, steps, &mut records, &mut grid.buffers());
    let number = answer.refusal.map_or(0, |refusal| refusal.number);
    let [after] = particles(settings.size, &records).unwrap()[..] else {
        panic!("one particle");
    };
    (answer.completed, number, after)
}

/// A particle that would leave: it is held by a sticky band, and slides along a slip one.
#[test]
fn rims_hold_a_particle() {
    let size = Size::new(9, 7);
    let start = Particle::at_rest(8, 40, 300, 200).moving(9, 2);
    let with = |kind: i128, width: i128| {
        let settings = Settings::new(size, 0, 0).with_edge(Edge::new(kind, width));
        ran(settings, 60, start)
    };
    assert_eq!(with(OPEN, 0).1, 15);
    for width in 2..=3 {
        let (completed, number, held) = with(STICKY, width);
        assert_eq!((completed, number), (60, 0), "sticky {width}");
        assert_eq!((held.vx, held.vy), (0, 0));
    }
    let (completed, number, sliding) = with(SLIP, 2);
    assert_eq!((completed, number), (60, 0), "slip");
    assert!(sliding.vx == 0 && sliding.x > 400);
}

/// Drag slows a lone particle until a step's loss is below a half, which the gather drops: at drag 40 it
/// keeps 3. From 128 on it keeps nothing, since a half goes to 0. One at rest stays where it is.
#[test]
fn drag_slows_a_particle() {
    let moving = Particle::at_rest(8, 40, 300, 600).moving(21, -5);
    for (drag, left) in [(40, 3), (127, 1), (128, 0), (129, 0), (255, 0)] {
        let settings = Settings::new(Size::new(20, 14), 0, 0).with_drag(drag);
        let (completed, number, after) = ran(settings, 20, moving);
        assert_eq!((completed, number), (20, 0), "{drag}");
        assert_eq!((after.vx, after.vy), (left, -left), "{drag}");
        let resting = after.moving(0, 0);
        assert_eq!(ran(settings, 20, resting), (20, 0, resting));
    }
}
