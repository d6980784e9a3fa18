//! Scatter, adding scatter, update, gather.

use reference::limits::{D, MAX_B, MAX_VELOCITY, RECORD_LENGTH};
use reference::particle_set::pack_records;
use reference::spline::axis_weight;
use reference::{Edge, Grid, Particle, Settings, Size};

use super::{accepted_sets, broken, case, copies, corners, differing_marks, edge_name, heaviest};
use super::{lone, marked, marked_records, refused_forcings, refused_sets, used_grid, with_grid};
use super::{REFUSED_GRIDS, REFUSED_SIZES, SMALL};
use crate::{Buffers, Case, Operation};

pub fn cases() -> Vec<Case> {
    let scatter: fn(Size) -> Operation = Operation::Scatter;
    let adding: fn(Size) -> Operation = Operation::AddingScatter;
    [
        scatter_refusals("scatter", scatter, |_| {}),
        scatter_cases("scatter", scatter),
        // A node would be refused too, after the set.
        scatter_refusals("adding-scatter", adding, |grid| grid.mass[0] = u64::MAX),
        scatter_cases("adding-scatter", adding),
        adding_present_nodes(),
        adding_ends(),
        adding_masses(),
        adding_orders(),
        adding_sizes(),
        adding_cases(),
        update_refusals(),
        update_cases(),
        update_refused_nodes(),
        update_velocity_edges(),
        update_drags(),
        update_rims(),
        update_refused_before_drag_and_rim(),
        gather_refusals(),
        gather_cases(),
        gather_b_cases(),
        gather_place_cases(),
        gather_order_cases(),
        gather_marks(),
    ]
    .concat()
}

/// Refusals of a scatter onto a grid that is changed so before.
fn scatter_refusals(
    scatter: &str,
    operation: fn(Size) -> Operation,
    changed: fn(&mut Grid),
) -> Vec<Case> {
    let refused = |name: &str, size: Size, mut buffers: Buffers, stated: (u32, usize)| {
        changed(&mut buffers.grid);
        let name = format!("{scatter}/{name}");
        case(name, operation(size), buffers, Some(stated))
    };
    let mut cases = Vec::new();
    for (name, size) in REFUSED_SIZES {
        let buffers = with_grid([0xA5; RECORD_LENGTH - 1], SMALL);
        cases.push(refused(name, size, buffers, (2, 0)));
    }
    for (name, change) in REFUSED_GRIDS {
        // The set would be refused too, after the length.
        let mut buffers = with_grid(marked(Particle { mass: 0, ..lone(0) }).pack(), SMALL);
        change(&mut buffers.grid);
        cases.push(refused(name, SMALL, buffers, (1, 0)));
    }
    for (name, records, stated) in refused_sets() {
        cases.push(refused(name, SMALL, with_grid(records, SMALL), stated));
    }
    cases
}

fn scatter_cases(scatter: &str, operation: fn(Size) -> Operation) -> Vec<Case> {
    let scatter = |name: &str, size: Size, records: Vec<u8>| {
        let name = format!("{scatter}/{name}");
        case(name, operation(size), with_grid(records, size), None)
    };
    let small =
        |name: &str, particles: &[Particle]| scatter(name, SMALL, marked_records(particles));
    let mut cases: Vec<Case> = accepted_sets()
        .into_iter()
        .map(|(name, records)| scatter(name, SMALL, records))
        .collect();
    let (rising, falling) = (largest_momentum(1), largest_momentum(-1));
    cases.extend([
        small("moving", &[lone(1).moving(3, -2)]),
        small(
            "weight-0-at-the-upper-nodes",
            &[Particle::at_rest(1, 1, 32, 96)],
        ),
        small("offset-31", &[Particle::at_rest(1, 1, 95, 159)]),
        small("Bxx", &[lone(1).with_b([1024, 0, 0, 0])]),
        small("Bxy", &[lone(1).with_b([0, 1024, 0, 0])]),
        small("Byx", &[lone(1).with_b([0, 0, 1024, 0])]),
        small("Byy", &[lone(1).with_b([0, 0, 0, 1024])]),
        small(
            "turn",
            &[Particle::at_rest(1, 7, 70, 51).with_b([0, -300, 300, 0])],
        ),
        small(
            "opposite-at-one-place",
            &[lone(1).moving(1, 0), lone(2).moving(-1, 0)],
        ),
        small(
            "masses-1-and-2",
            &[lone(1).moving(1, 0), Particle { mass: 2, ..lone(2) }],
        ),
        small("largest-node-mass", &heaviest(lone(0))),
        small("largest-node-momentum", &heaviest(rising)),
        small("smallest-node-momentum", &heaviest(falling)),
        scatter(
            "corners-of-4-by-6",
            Size::new(4, 6),
            corners(Size::new(4, 6), 0),
        ),
        scatter(
            "corners-of-48-by-4",
            Size::new(48, 4),
            corners(Size::new(48, 4), 0),
        ),
    ]);
    cases
}

/// The particle whose share of one node's momentum is the largest (or smallest) that there is.
fn largest_momentum(sign: i128) -> Particle {
    let share = |x: i128, node: i128| (axis_weight(x, node), (64 * node - x).abs());
    let momentum = |&(x, y, i, j): &(i128, i128, i128, i128)| {
        let ((wx, dx), (wy, dy)) = (share(x, i), share(y, j));
        wx * wy * (D * MAX_VELOCITY + MAX_B * (dx + dy))
    };
    let places = (32..96).flat_map(|x| (32..96).map(move |y| (x, y)));
    let nodes = |(x, y)| (0..3).flat_map(move |i| (0..3).map(move |j| (x, y, i, j)));
    let best = places.flat_map(nodes).max_by_key(momentum);
    let (x, y, i, j) = best.expect("some place");
    let b = |node: i128, place: i128| sign * MAX_B * (64 * node - place).signum();
    let v = sign * MAX_VELOCITY;
    Particle::at_rest(0, 1, x, y)
        .moving(v, -v)
        .with_b([b(i, x), b(j, y), -b(i, x), -b(j, y)])
}

/// The grid of the adding scatter's nodes.
const OBLONG: Size = Size { nx: 6, ny: 4 };

/// The first, a middle and the last node of 6 by 4, and what [`section`] adds to the mass of each.
const REACHED: [(usize, u64); 3] = [
    (0, 5 * 1024 * 1024),
    (9, 7 * 6144 * 6144 + 11 * 1024 * 1024),
    (23, 11 * 1024 * 1024),
];

/// Particles on 6 by 4 nodes, each at a node's place.
fn section() -> Vec<u8> {
    let at =
        |identifier, mass, i: i128, j: i128| Particle::at_rest(identifier, mass, 64 * i, 64 * j);
    marked_records(&[
        at(2, 5, 1, 1).moving(9, -62).with_b([800, -1, 2, -2000]),
        at(3, 7, 3, 1).moving(-40, 3).with_b([-7, 600, 50, 4]),
        at(8, 11, 4, 2).moving(63, 1).with_b([2047, -300, -2, 91]),
    ])
}

/// An adding scatter.
fn add_to_grid(
    name: &str,
    size: Size,
    bytes: Vec<u8>,
    grid: Grid,
    stated: Option<(u32, usize)>,
) -> Case {
    let name = format!("adding-scatter/{name}");
    let buffers = Buffers::new(bytes, grid);
    case(name, Operation::AddingScatter(size), buffers, stated)
}

/// A node's mass and momenta.
type Held = (u64, i64, i64);

/// The adding scatter of a set onto 6 by 4 nodes of which some hold these, the others what is accepted.
fn add_to_nodes(
    name: &str,
    records: Vec<u8>,
    nodes: &[(usize, Held)],
    stated: Option<(u32, usize)>,
) -> Case {
    let mut grid = distinct_grid(OBLONG);
    for &(node, held) in nodes {
        (grid.mass[node], grid.x[node], grid.y[node]) = held;
    }
    add_to_grid(name, OBLONG, records, grid, stated)
}

/// The largest present momentum of a node, and the next.
fn adding_present_nodes() -> Vec<Case> {
    let mut cases = Vec::new();
    let masses = [
        ("mass-0", 0, section()),
        ("mass-3", 3, section()),
        ("mass-2^42", HEAVY / 2, section()),
        ("mass-2^43-empty-set", HEAVY, Vec::new()),
    ];
    for (mass_name, mass, records) in masses {
        for (node, _) in REACHED {
            for (sign, way) in [(1, "up"), (-1, "down")] {
                let last = sign * 457_536 * mass as i64;
                let next = last + sign;
                let name = format!("node-{node}-{mass_name}-momentum-{way}");
                let mut add = |name: &str, x: i64, y: i64, number: u32| {
                    let stated = (number > 0).then_some((number, node));
                    let nodes = [(node, (mass, x, y))];
                    cases.push(add_to_nodes(name, records.clone(), &nodes, stated));
                };
                add(&name, last, -last, 0);
                add(&format!("{name}-passed-x"), next, -last, 20);
                add(&format!("{name}-passed-y"), -last, next, 20);
            }
        }
    }
    cases
}

/// Present masses above 2^43 and the ends of the numbers' types, with a set and with one that has no
/// record.
fn adding_ends() -> Vec<Case> {
    let mut cases = Vec::new();
    for (set_name, records) in [("set", section()), ("empty-set", Vec::new())] {
        for (node, _) in REACHED {
            let mut refused = |name: &str, held: Held| {
                let name = format!("node-{node}-{name}-{set_name}");
                let nodes = [(node, held)];
                cases.push(add_to_nodes(
                    &name,
                    records.clone(),
                    &nodes,
                    Some((20, node)),
                ));
            };
            refused("mass-2^43+1", (HEAVY + 1, 0, 0));
            refused("mass-2^64-1", (u64::MAX, 5, -4));
            for (name, mass) in [("0", 0), ("1", 1), ("2^43", HEAVY), ("2^64-1", u64::MAX)] {
                refused(&format!("mass-{name}-smallest-x"), (mass, i64::MIN, 0));
                refused(&format!("mass-{name}-largest-x"), (mass, i64::MAX, 0));
                refused(&format!("mass-{name}-smallest-y"), (mass, 0, i64::MIN));
                refused(&format!("mass-{name}-largest-y"), (mass, 0, i64::MAX));
            }
        }
    }
    cases
}

/// The largest mass that a node may hold before, and the next.
fn adding_masses() -> Vec<Case> {
    let mut cases = Vec::new();
    for (node, share) in REACHED {
        let last = HEAVY - share;
        let p = 457_536 * last as i64;
        for (name, mass, number) in [
            ("filled", last, 0),
            ("passed", last + 1, 21),
            ("full", HEAVY, 21),
        ] {
            let stated = (number > 0).then_some((number, node));
            let add = |name: &str, x, y| {
                let name = format!("node-{node}-{name}");
                add_to_nodes(&name, section(), &[(node, (mass, x, y))], stated)
            };
            cases.extend([
                add(name, 7, -8),
                add(&format!("{name}-up-and-down"), p, -p),
                add(&format!("{name}-down-and-up"), -p, p),
            ]);
        }
    }
    cases
}

/// Two nodes that are refused, and a node that is refused twice over.
fn adding_orders() -> Vec<Case> {
    const FAST: i64 = 3 * 457_536 + 1;
    let refused = |name, nodes: &[_], number, node| {
        add_to_nodes(name, section(), nodes, Some((number, node)))
    };
    let fast_x = (3, FAST, 0);
    let fast_y = (3, 0, -FAST);
    let full = (HEAVY, 0, 0);
    vec![
        refused("20-at-0-21-at-9", &[(0, fast_y), (9, full)], 20, 0),
        refused("21-at-0-20-at-9", &[(0, full), (9, fast_x)], 21, 0),
        refused("20-at-9-21-at-23", &[(9, fast_x), (23, full)], 20, 9),
        refused("21-at-9-20-at-23", &[(9, full), (23, fast_y)], 21, 9),
        refused("20-at-8-21-at-9", &[(8, fast_x), (9, full)], 20, 8),
        refused("21-at-9-20-at-10", &[(9, full), (10, fast_y)], 21, 9),
        refused("20-at-8-and-at-13", &[(8, fast_y), (13, fast_x)], 20, 8),
        refused("20-at-13-and-at-18", &[(13, fast_x), (18, fast_y)], 20, 13),
        refused("21-at-0-and-at-23", &[(23, full), (0, full)], 21, 0),
        refused("20-at-0-and-at-23", &[(23, fast_x), (0, fast_y)], 20, 0),
        refused("20-before-21-x", &[(9, (HEAVY, i64::MIN, 0))], 20, 9),
        refused("20-before-21-y", &[(9, (HEAVY, 0, i64::MAX))], 20, 9),
        refused("20-before-21-mass", &[(9, (HEAVY + 1, 0, 0))], 20, 9),
    ]
}

/// Grids on both sides of the size at which the engine takes larger ones of its own, and a large one: a set
/// that is added, and the last node refused.
fn adding_sizes() -> Vec<Case> {
    let mut cases = Vec::new();
    for (nx, ny) in [(20, 16), (17, 19), (48, 47)] {
        let size = Size::new(nx, ny);
        let last = size.nodes() - 1;
        let mut add = |name: &str, (mass, x, y): Held, stated: Option<(u32, usize)>| {
            let mut grid = Grid::filled(size.nodes(), 3, 5, -7);
            (grid.mass[last], grid.x[last], grid.y[last]) = (mass, x, y);
            let name = format!("on-{nx}-by-{ny}-{name}");
            cases.push(add_to_grid(&name, size, corners(size, 3), grid, stated));
        };
        add("accepted", (3, 5, -7), None);
        add("present", (3, 0, -3 * 457_536 - 1), Some((20, last)));
        add("full", (HEAVY, 0, 0), Some((21, last)));
    }
    cases
}

/// Sets added to nodes that hold something different each, and to nodes that hold nothing.
fn adding_cases() -> Vec<Case> {
    let add = |name: &str, size: Size, records: Vec<u8>, grid: Grid| {
        add_to_grid(name, size, records, grid, None)
    };
    let (tall, wide) = (Size::new(4, 7), Size::new(48, 4));
    vec![
        add_to_nodes("to-distinct", section(), &[], None),
        add_to_nodes("empty-to-distinct", Vec::new(), &[], None),
        add("to-nothing", OBLONG, section(), Grid::zero(24)),
        add("empty-to-nothing", OBLONG, Vec::new(), Grid::zero(24)),
        add("on-4-by-7", tall, corners(tall, 3), distinct_grid(tall)),
        add("on-48-by-4", wide, corners(wide, 5), distinct_grid(wide)),
        add(
            "heaviest-to-distinct",
            OBLONG,
            marked_records(&heaviest(largest_momentum(-1))),
            distinct_grid(OBLONG),
        ),
    ]
}

fn settings(gx: i128, gy: i128) -> Settings {
    Settings::new(SMALL, gx, gy)
}

/// Buffers of a grid alone.
fn grid_alone(grid: Grid) -> Buffers {
    Buffers::new(Vec::new(), grid)
}

fn update_refusals() -> Vec<Case> {
    let mut cases = Vec::new();
    for (name, size) in REFUSED_SIZES {
        let operation = Operation::Update(broken(size));
        let buffers = grid_alone(used_grid(SMALL));
        cases.push(case(
            format!("update/{name}"),
            operation,
            buffers,
            Some((2, 0)),
        ));
    }
    for (name, change) in REFUSED_GRIDS {
        let mut buffers = grid_alone(used_grid(SMALL));
        change(&mut buffers.grid);
        let operation = Operation::Update(broken(SMALL));
        cases.push(case(
            format!("update/{name}"),
            operation,
            buffers,
            Some((1, 0)),
        ));
    }
    for (name, settings, stated) in refused_forcings() {
        let mut buffers = grid_alone(used_grid(SMALL));
        buffers.grid.mass[0] = u64::MAX;
        let operation = Operation::Update(settings);
        cases.push(case(
            format!("update/{name}"),
            operation,
            buffers,
            Some(stated),
        ));
    }
    cases
}

/// Update of a grid whose nodes from 2 on hold the given masses and momenta, the others zero.
fn update_nodes(
    name: &str,
    gravity: (i128, i128),
    nodes: &[(u64, i64, i64)],
    stated: Option<(u32, usize)>,
) -> Case {
    update_nodes_with(name, settings(gravity.0, gravity.1), nodes, stated)
}

/// The same with these settings.
pub fn update_nodes_with(
    name: &str,
    settings: Settings,
    nodes: &[(u64, i64, i64)],
    stated: Option<(u32, usize)>,
) -> Case {
    let mut grid = Grid::zero(settings.size.nodes());
    for (node, &(mass, x, y)) in nodes.iter().enumerate() {
        (grid.mass[2 + node], grid.x[2 + node], grid.y[2 + node]) = (mass, x, y);
    }
    let operation = Operation::Update(settings);
    case(
        format!("update/{name}"),
        operation,
        grid_alone(grid),
        stated,
    )
}

/// The greatest node mass.
pub const HEAVY: u64 = 1 << 43;

fn update_cases() -> Vec<Case> {
    let accepted = |name, gravity, nodes: &[_]| update_nodes(name, gravity, nodes, None);
    let halves: Vec<(u64, i64, i64)> = (0..10).map(|p| (1, p, -p)).collect();
    let sixths: Vec<(u64, i64, i64)> = (0..14).map(|p| (3, p, -p)).collect();
    let half = 1 << 44;
    vec![
        accepted("zero", (4096, -4096), &[]),
        accepted("halves-of-mass-1", (0, 0), &halves),
        accepted("sixths-of-mass-3", (0, 0), &sixths),
        accepted("gravity-skips-massless-nodes", (4096, -4096), &[(1, 0, 0)]),
        accepted("gravity-after-rounding", (3, -3), &[(1, 2, 2), (1, -2, -2)]),
        accepted("half-of-mass-2^43", (7, 7), &[(HEAVY, half, -half)]),
        accepted(
            "below-half-of-mass-2^43",
            (7, 7),
            &[(HEAVY, half - 1, 1 - half)],
        ),
        accepted(
            "above-half-of-mass-2^43",
            (7, 7),
            &[(HEAVY, half + 1, -half - 1)],
        ),
    ]
}

fn update_refused_nodes() -> Vec<Case> {
    const MIN: i64 = i64::MIN;
    const MAX: i64 = i64::MAX;
    let refused =
        |name, g, nodes: &[_], number| update_nodes(name, (g, g), nodes, Some((number, 2)));
    let last = [&[(1, 8, 8); 13][..], &[(0, 9, 0)]].concat();
    vec![
        refused("mass-2^43+1", 7, &[(HEAVY + 1, 0, 0)], 11),
        refused("mass-2^64-1", 7, &[(u64::MAX, 5, 5)], 11),
        refused("massless-x", 7, &[(0, 1, 0)], 11),
        refused("massless-y", 7, &[(0, 0, -1)], 11),
        refused("massless-smallest-momentum", 7, &[(0, MIN, 0)], 11),
        refused("smallest-momentum-mass-1", 4096, &[(1, MIN, 0)], 12),
        refused("smallest-momentum-on-y", 4096, &[(1, 0, MIN)], 12),
        refused("smallest-momentum-mass-2^43", 4096, &[(HEAVY, MIN, 0)], 12),
        refused("largest-momentum-mass-1", -4096, &[(1, MAX, 0)], 12),
        refused("largest-momentum-mass-2^43", -4096, &[(HEAVY, MAX, 0)], 12),
        refused("11-before-12-at-a-node", 0, &[(HEAVY + 1, MIN, MIN)], 11),
        refused(
            "12-at-a-lower-node-than-11",
            0,
            &[(1, MIN, 0), (0, 1, 0)],
            12,
        ),
        refused(
            "11-at-a-lower-node-than-12",
            0,
            &[(0, 1, 0), (1, MIN, 0)],
            11,
        ),
        refused(
            "12-on-y-before-12-later",
            0,
            &[(1, 0, MAX), (1, MAX, 0)],
            12,
        ),
        update_nodes("refused-at-the-last-node", (0, 0), &last, Some((11, 15))),
    ]
}

/// The last momentum of a node whose velocity is accepted, and the next: the half above an even velocity
/// is still accepted, that above an odd one is not.
fn update_velocity_edges() -> Vec<Case> {
    let mut cases = Vec::new();
    for (name, velocity, g) in [
        ("velocity-131072", 131_072, 0),
        ("velocity-131072-gravity-along", 126_976, 4096),
        ("velocity-131072-gravity-against", 135_168, -4096),
        ("velocity-131072-gravity-1-along", 131_071, 1),
        ("velocity-131072-gravity-1-against", 131_073, -1),
    ] {
        for (mass, mass_name) in [(3, ""), (HEAVY, "-mass-2^43")] {
            for (sign, way) in [(1, "up"), (-1, "down")] {
                let half = (4 * velocity + 2) * mass as i64;
                let (last, g) = (sign * (half - velocity % 2), i128::from(sign) * g);
                let next = last + sign;
                let name = format!("{name}{mass_name}-{way}");
                let mut update = |name: &str, x: i64, y: i64, stated| {
                    cases.push(update_nodes(name, (g, g), &[(mass, x, y)], stated));
                };
                update(&name, last, last, None);
                update(&format!("{name}-passed-x"), next, last, Some((12, 2)));
                update(&format!("{name}-passed-y"), last, next, Some((12, 2)));
            }
        }
    }
    cases
}

/// Drags at their ends and about a half, on velocities at which one of them loses a half.
fn update_drags() -> Vec<Case> {
    let velocities = [
        1, 2, 3, 5, 6, 64, 127, 128, 129, 130, 192, 384, 1001, 131_072,
    ];
    let nodes = velocities.map(|u| (3, 12 * u, -12 * u));
    [0, 1, 2, 3, 64, 127, 128, 129, 192, 254, 255]
        .map(|drag| {
            let settings = settings(0, 0).with_drag(drag);
            update_nodes_with(&format!("drag-{drag}"), settings, &nodes, None)
        })
        .into()
}

/// A grid whose velocities without gravity differ from node to node, with one massless node.
fn distinct_grid(size: Size) -> Grid {
    let mut grid = Grid::zero(size.nodes());
    for node in (0..size.nodes()).filter(|&node| node != 6) {
        let (mass, k) = (1 + node as i64 % 3, node as i64);
        grid.mass[node] = mass as u64;
        grid.x[node] = 4 * mass * (1000 + 37 * k);
        grid.y[node] = -4 * mass * (2000 + 53 * k);
    }
    grid
}

/// Every edge on small grids, where bands overlap, and on larger ones; with drag on some.
fn update_rims() -> Vec<Case> {
    let sizes = [(4, 4), (4, 5), (5, 4), (6, 4), (7, 6), (8, 9)];
    let mut cases = Vec::new();
    for edge in Edge::ALL {
        for (nx, ny) in sizes {
            for drag in if nx < 7 { &[0][..] } else { &[0, 1, 128, 255] } {
                let size = Size::new(nx, ny);
                let settings = Settings::new(size, 3, -5).with_edge(edge).with_drag(*drag);
                let name = format!("update/{}-on-{nx}-by-{ny}-drag-{drag}", edge_name(edge));
                let buffers = grid_alone(distinct_grid(size));
                cases.push(case(name, Operation::Update(settings), buffers, None));
            }
        }
    }
    cases
}

/// 11 and 12 at a node of the band, and 12 of a velocity that drag would bring within its limit.
fn update_refused_before_drag_and_rim() -> Vec<Case> {
    let (last, next) = (12 * 131_072 + 6, 12 * 131_072 + 7);
    let mut cases = Vec::new();
    for (edge, drag) in [
        (Edge::OPEN, 255),
        (Edge::sticky(1), 0),
        (Edge::sticky(3), 255),
        (Edge::slip(1), 0),
        (Edge::slip(2), 128),
    ] {
        let settings = settings(0, 0).with_edge(edge).with_drag(drag);
        let update = |what: &str, nodes: &[_], number: u32| {
            let name = format!("{}-drag-{drag}-{what}", edge_name(edge));
            let stated = (number > 0).then_some((number, 2));
            update_nodes_with(&name, settings, nodes, stated)
        };
        cases.extend([
            update("velocity-131072", &[(3, last, -last)], 0),
            update("velocity-131073-x", &[(3, -next, last)], 12),
            update("velocity-131073-y", &[(3, last, next)], 12),
            update("massless-momentum", &[(0, 0, -1), (3, next, 0)], 11),
            update("mass-2^43+1", &[(HEAVY + 1, 0, 0)], 11),
        ]);
    }
    cases
}

/// A gather from the same velocities at all nodes.
fn gather_uniform(
    name: &str,
    size: Size,
    particles: &[Particle],
    (ux, uy): (i64, i64),
    stated: Option<(u32, usize)>,
) -> Case {
    let mut grid = Grid::filled(size.nodes(), 0, ux, uy);
    grid.mass.clear();
    let bytes = marked_records(particles);
    let operation = Operation::Gather(size);
    let name = format!("gather/{name}");
    case(name, operation, Buffers::new(bytes, grid), stated)
}

/// A velocity buffer by column and row.
pub fn field(size: Size, velocity: impl Fn(i64, i64) -> i64) -> Vec<i64> {
    (0..size.nodes() as i64)
        .map(|node| velocity(node % size.nx as i64, node / size.nx as i64))
        .collect()
}

/// A gather from the given velocities.
pub fn gather_field(
    name: &str,
    size: Size,
    particles: &[Particle],
    (x, y): (Vec<i64>, Vec<i64>),
    stated: Option<(u32, usize)>,
) -> Case {
    let mass = Vec::new();
    let grid = Grid { mass, x, y };
    let bytes = marked_records(particles);
    let operation = Operation::Gather(size);
    let name = format!("gather/{name}");
    case(name, operation, Buffers::new(bytes, grid), stated)
}

fn gather_refusals() -> Vec<Case> {
    let fast = 131_073;
    let velocities = |mut buffers: Buffers| {
        buffers.grid.mass.clear();
        buffers.grid.x.fill(fast);
        buffers
    };
    let mut cases = Vec::new();
    for (name, size) in REFUSED_SIZES {
        let buffers = velocities(with_grid([0xA5; RECORD_LENGTH - 1], SMALL));
        let operation = Operation::Gather(size);
        cases.push(case(
            format!("gather/{name}"),
            operation,
            buffers,
            Some((2, 0)),
        ));
    }
    for (name, change) in &REFUSED_GRIDS[2..] {
        let massless = marked(Particle { mass: 0, ..lone(0) });
        let mut buffers = velocities(with_grid(massless.pack(), SMALL));
        change(&mut buffers.grid);
        let operation = Operation::Gather(SMALL);
        cases.push(case(
            format!("gather/{name}"),
            operation,
            buffers,
            Some((1, 0)),
        ));
    }
    for (name, records, stated) in refused_sets() {
        let buffers = velocities(with_grid(records, SMALL));
        let operation = Operation::Gather(SMALL);
        cases.push(case(
            format!("gather/{name}"),
            operation,
            buffers,
            Some(stated),
        ));
    }
    for (name, node, ux, uy) in [
        ("node-0-x-131073", 0, fast, 0),
        ("node-7-x--131073", 7, -fast, 0),
        ("node-15-y-131073", 15, 0, fast),
        ("node-3-y-smallest", 3, 0, i64::MIN),
        ("node-3-x-largest", 3, i64::MAX, 0),
    ] {
        // The record would be refused too, after the nodes.
        let (mut x, mut y) = (vec![131_072; 16], vec![-131_072; 16]);
        (x[node], y[node]) = (ux, uy);
        cases.push(gather_field(
            name,
            SMALL,
            &[lone(1)],
            (x, y),
            Some((12, node)),
        ));
    }
    cases
}

/// The grid of the gather cases; a coordinate is 32 to 415 on it.
const MIDDLE: Size = Size { nx: 8, ny: 8 };

fn gather_cases() -> Vec<Case> {
    let middle = Particle::at_rest(3, 9, 192, 192);
    let fast = (131_072, -131_072);
    let old_state = lone(1).moving(9, 9).with_b([5; 4]);
    let slopes = (
        field(MIDDLE, |i, j| 700 + 300 * i - 50 * j),
        field(MIDDLE, |i, j| 90 * i * j - 800),
    );
    let moving = Particle::at_rest(3, 9, 201, 183);
    let mut cases = vec![
        gather_uniform("empty", SMALL, &[], fast, None),
        gather_uniform("rest", SMALL, &[old_state], (0, 0), None),
        gather_uniform(
            "two-at-one-place",
            SMALL,
            &copies(2, lone(0)),
            (600, -900),
            None,
        ),
        gather_uniform("13-x", MIDDLE, &[middle], (16_256, 0), Some((13, 0))),
        gather_uniform("13-y", MIDDLE, &[middle], (0, -16_256), Some((13, 0))),
        gather_uniform("63-x", MIDDLE, &[middle], (16_255, -16_255), None),
        gather_uniform(
            "largest-node-velocity",
            MIDDLE,
            &[middle],
            fast,
            Some((13, 0)),
        ),
        gather_field(
            "offsets-of-the-place-before",
            MIDDLE,
            &[moving],
            slopes,
            None,
        ),
    ];
    for u in [127, 128, 129, 383, 384, 385, 639, 640, 641] {
        cases.push(gather_uniform(
            &format!("v-of-{u}"),
            MIDDLE,
            &[middle],
            (u, -u),
            None,
        ));
    }
    cases
}

/// Velocity −a on one side of the particle's node and a on the other gives an entry of a/16.
fn gather_b_cases() -> Vec<Case> {
    let across = |a: i64, place: i64| a * (place - 3).signum();
    let along_x = |a| field(MIDDLE, |i, _| across(a, i));
    let along_y = |a| field(MIDDLE, |_, j| across(a, j));
    let still = || vec![0; MIDDLE.nodes()];
    let middle = Particle::at_rest(3, 9, 192, 192);
    let mut cases = Vec::new();
    for size in [7, 8, 9, 23, 24, 25, 39, 40, 41, 32_744, 32_759, 32_760] {
        let stated = (size == 32_760).then_some((14, 0));
        for a in [size, -size] {
            for (entry, field) in [
                ("Bxx", (along_x(a), still())),
                ("Bxy", (along_y(a), still())),
                ("Byx", (still(), along_x(a))),
                ("Byy", (still(), along_y(a))),
            ] {
                let name = format!("{entry}-of-{a}-16ths");
                cases.push(gather_field(&name, MIDDLE, &[middle], field, stated));
            }
        }
    }
    cases
}

fn gather_place_cases() -> Vec<Case> {
    let mut cases = Vec::new();
    for (place, v) in [
        (33, -1),
        (33, -2),
        (95, -63),
        (94, -63),
        (414, 1),
        (414, 2),
        (352, 63),
        (353, 63),
    ] {
        let moved = place + i128::from(v);
        let stated = (!(32..=415).contains(&moved)).then_some((15, 0));
        let along_x = Particle::at_rest(3, 9, place, 200);
        let name = format!("x-{place}-v-{v}");
        cases.push(gather_uniform(
            &name,
            MIDDLE,
            &[along_x],
            (256 * v, 0),
            stated,
        ));
        let along_y = Particle::at_rest(3, 9, 200, place);
        let name = format!("y-{place}-v-{v}");
        cases.push(gather_uniform(
            &name,
            MIDDLE,
            &[along_y],
            (0, 256 * v),
            stated,
        ));
    }
    cases
}

/// 13, 14, 15 at one record in this order, the lowest record first, and no record moved.
fn gather_order_cases() -> Vec<Case> {
    let edge = Particle::at_rest(1, 1, 32, 200);
    let middle = Particle::at_rest(2, 1, 200, 200);
    let late_edge = Particle {
        identifier: 3,
        ..edge
    };
    let still = vec![0; MIDDLE.nodes()];
    let steep = field(MIDDLE, |i, _| if i == 0 { -80_000 } else { 60_000 });
    let steeper = field(MIDDLE, |i, _| if i == 0 { -130_000 } else { 60_000 });
    vec![
        gather_field(
            "13-before-14-and-15",
            MIDDLE,
            &[edge],
            (steeper, still.clone()),
            Some((13, 0)),
        ),
        gather_field(
            "14-before-15",
            MIDDLE,
            &[edge],
            (steep, still),
            Some((14, 0)),
        ),
        gather_uniform(
            "13-before-15",
            MIDDLE,
            &[edge],
            (-131_072, 0),
            Some((13, 0)),
        ),
        gather_uniform(
            "15-at-record-0",
            MIDDLE,
            &[edge, middle],
            (-256, 0),
            Some((15, 0)),
        ),
        gather_uniform(
            "15-at-record-1",
            MIDDLE,
            &[middle, late_edge],
            (-256, 0),
            Some((15, 1)),
        ),
    ]
}

/// Records with the marks that they are given, gathered and refused.
fn gather_marks() -> Vec<Case> {
    let size = Size::new(8, 9);
    let gather = |name: &str, ux: i64, uy: i64, stated| {
        let grid = Grid {
            mass: Vec::new(),
            x: field(size, |i, j| ux + 30 * i - 50 * j),
            y: field(size, |i, j| uy - 20 * i * j),
        };
        let bytes = pack_records(&differing_marks());
        let name = format!("gather/marks{name}");
        case(
            name,
            Operation::Gather(size),
            Buffers::new(bytes, grid),
            stated,
        )
    };
    vec![
        gather("", 700, -300, None),
        gather("-13", 16_900, 0, Some((13, 0))),
        gather("-12", 0, 131_073, Some((12, 0))),
    ]
}
