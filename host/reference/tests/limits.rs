//! Every limit at its edge and one beyond.

use reference::limits::{HEADER_LENGTH, MAX_SET_LENGTH, RECORD_LENGTH};
use reference::particle_set::pack_records;
use reference::{adding_scatter, check_set, gather, program, read_file, read_record, run, scatter};
use reference::{step, update, write_header, write_record};
use reference::{Edge, Grid, Header, Particle, Refusal, RunAnswer, Settings, Size};

const SMALL: Size = Size { nx: 4, ny: 4 };

fn at(identifier: u16) -> Particle {
    Particle::at_rest(identifier, 1, 64, 64)
}

fn refused<T>(number: u32) -> Result<T, Refusal> {
    Err(Refusal::at(number, 0))
}

/// Writing answers with this number (0 where it is accepted); what is written reads back.
fn expect_written(particle: Particle, number: u32) {
    let mut buffer = [0xA5; RECORD_LENGTH];
    let answer = write_record(&particle, &mut buffer);
    if number == 0 {
        assert_eq!((answer, read_record(&buffer)), (Ok(()), Ok(particle)));
    } else {
        assert_eq!((answer, buffer), (refused(number), [0xA5; RECORD_LENGTH]));
    }
}

#[test]
fn fields_of_a_written_record() {
    for (mass, number) in [
        (i128::MIN, 4),
        (-1, 4),
        (0, 4),
        (1, 0),
        (1023, 0),
        (1024, 4),
    ] {
        expect_written(Particle { mass, ..at(0) }, number);
    }
    for (v, number) in [
        (-65, 5),
        (-64, 5),
        (-63, 0),
        (63, 0),
        (64, 5),
        (i128::MAX, 5),
    ] {
        expect_written(at(0).moving(v, 0), number);
        expect_written(at(0).moving(0, v), number);
    }
    for (b, number) in [(-2049, 6), (-2048, 6), (-2047, 0), (2047, 0), (2048, 6)] {
        for entry in 0..4 {
            let mut entries = [0; 4];
            entries[entry] = b;
            expect_written(at(0).with_b(entries), number);
        }
    }
    for (place, number) in [(-1, 7), (0, 0), (4095, 0), (4096, 7)] {
        expect_written(Particle { x: place, ..at(0) }, number);
        expect_written(Particle { y: place, ..at(0) }, number);
    }
    for identifier in [0, 1, u16::MAX] {
        expect_written(at(identifier), 0);
    }
    for marks in [0, 1, u8::MAX] {
        expect_written(at(0).with_marks(marks), 0);
    }
}

#[test]
fn sizes() {
    for nodes in [i128::MIN, -4, 0, 3, 4, 48, 49, 64, i128::MAX] {
        let expected = if (4..=48).contains(&nodes) {
            Ok(0)
        } else {
            refused(2)
        };
        assert_eq!(check_set(Size::new(nodes, 4), &[]), expected);
        assert_eq!(check_set(Size::new(48, nodes), &[]), expected);
    }
}

#[test]
fn places_at_every_size() {
    for nodes in 4..=48 {
        let greatest = 64 * (nodes - 1) - 33;
        let places = [
            (31, false),
            (32, true),
            (greatest, true),
            (greatest + 1, false),
        ];
        for (place, accepted) in places {
            let expected = if accepted { Ok(1) } else { refused(7) };
            let along_x = Particle { x: place, ..at(0) }.pack();
            assert_eq!(check_set(Size::new(nodes, 4), &along_x), expected);
            let along_y = Particle { y: place, ..at(0) }.pack();
            assert_eq!(check_set(Size::new(4, nodes), &along_y), expected);
        }
    }
}

#[test]
fn number_of_records() {
    let many = |count: u16| -> Vec<u8> { (0..count).flat_map(|k| at(k).pack()).collect() };
    assert_eq!(check_set(SMALL, &[]), Ok(0));
    assert_eq!(check_set(SMALL, &many(4096)), Ok(4096));
    assert_eq!(check_set(SMALL, &many(4097)), refused(1));
    let most = many(4096);
    assert_eq!(most.len(), MAX_SET_LENGTH);
    for fewer in 1..RECORD_LENGTH {
        let cut = &most[..MAX_SET_LENGTH - fewer];
        assert_eq!(check_set(SMALL, cut), refused(1));
    }
}

#[test]
fn total_mass() {
    let mut particles: Vec<Particle> = (0..129).map(at).collect();
    particles.iter_mut().for_each(|p| p.mass = 1023);
    particles[128].mass = 128;
    assert_eq!(check_set(SMALL, &pack_records(&particles)), Ok(129));
    particles[128].mass = 129;
    assert_eq!(
        check_set(SMALL, &pack_records(&particles)),
        Err(Refusal::at(9, 128))
    );
}

#[test]
fn identifiers_at_their_ends() {
    let set = pack_records(&[at(0), at(u16::MAX)]);
    assert_eq!(check_set(SMALL, &set), Ok(2));
    let set = pack_records(&[at(u16::MAX), at(0)]);
    assert_eq!(check_set(SMALL, &set), Err(Refusal::at(8, 1)));
}

#[test]
fn gravity() {
    for g in [-4097_i128, -4096, 4096, 4097] {
        let expected = if g.abs() > 4096 { refused(10) } else { Ok(()) };
        for settings in [Settings::new(SMALL, g, 0), Settings::new(SMALL, 0, g)] {
            expect_settings(settings, expected);
        }
    }
}

/// Update, step, run and write a header answer so to settings on 4 by 4 nodes.
fn expect_settings(settings: Settings, expected: Result<(), Refusal>) {
    let mut grid = Grid::zero(16);
    assert_eq!(update(settings, &mut grid.buffers()), expected);
    assert_eq!(step(settings, &mut [], &mut grid.buffers()), expected);
    let answer = run(settings, 1, &mut [], &mut grid.buffers());
    assert_eq!(answer.refusal, expected.err());
    let header = Header {
        settings,
        count: 0,
        steps: 1,
    };
    let mut file = [0; HEADER_LENGTH];
    assert_eq!(write_header(&header, &mut file), expected);
    assert_eq!(read_file(&file).ok(), expected.is_ok().then_some(header));
}

/// Numbers about the ends of small ranges, and those that a narrower type cuts to one of them.
const NUMBERS: [i128; 14] = [
    i128::MIN,
    -1,
    0,
    1,
    2,
    3,
    4,
    5,
    255,
    256,
    257,
    (1 << 32) + 1,
    (1 << 64) + 2,
    i128::MAX,
];

#[test]
fn kinds_and_widths() {
    for kind in NUMBERS {
        for width in NUMBERS {
            let edge = Edge::new(kind, width);
            let accepted = match kind {
                0 => width == 0,
                1 | 2 => [1, 2, 3].contains(&width),
                _ => false,
            };
            assert_eq!(accepted, Edge::ALL.contains(&edge));
            let expected = if accepted { Ok(()) } else { refused(18) };
            expect_settings(Settings::new(SMALL, 0, 0).with_edge(edge), expected);
        }
    }
}

#[test]
fn drags() {
    for drag in NUMBERS.into_iter().chain([128, 254]) {
        let accepted = [0, 1, 2, 3, 4, 5, 128, 254, 255].contains(&drag);
        let expected = if accepted { Ok(()) } else { refused(19) };
        expect_settings(Settings::new(SMALL, 0, 0).with_drag(drag), expected);
    }
}

/// Every kind, width and drag that a header's bits can hold.
#[test]
fn edges_of_a_file() {
    for bits in 0..1 << 12 {
        let (kind, width, drag) = (bits >> 10, bits >> 8 & 3, bits & 255);
        let settings = Settings::new(Size::new(4, 5), -7, 9)
            .with_edge(Edge::new(kind, width))
            .with_drag(drag);
        let header = Header {
            settings,
            count: 0,
            steps: 3,
        };
        let expected = if Edge::ALL.contains(&settings.edge) {
            Ok(header)
        } else {
            refused(18)
        };
        assert_eq!(read_file(&header.pack(0)), expected);
    }
}

#[test]
fn steps_of_a_run() {
    let mut grid = Grid::zero(16);
    for (steps, completed, refusal) in [
        (0, 0, None),
        (10_000, 10_000, None),
        (10_001, 0, Some(Refusal::at(17, 0))),
        (i128::MAX, 0, Some(Refusal::at(17, 0))),
    ] {
        let settings = Settings::new(SMALL, 0, 0);
        let answer = run(settings, steps, &mut [], &mut grid.buffers());
        assert_eq!(answer, RunAnswer { completed, refusal });
    }
}

const OBLONG: Size = Size { nx: 4, ny: 5 };

/// Two records on 4 by 5 nodes, and their grid.
fn scattered() -> (Vec<u8>, Grid) {
    let records = pack_records(&[
        Particle::at_rest(3, 900, 70, 51)
            .moving(9, -62)
            .with_b([800, -1, 2, -2000]),
        Particle::at_rest(5, 7, 150, 201).moving(-40, 3),
    ]);
    let mut grid = Grid::zero(20);
    scatter(OBLONG, &records, &mut grid.buffers()).unwrap();
    (records, grid)
}

/// Adding scatter's answer where one node holds this and the others nothing. A refused call leaves the
/// grid, an accepted one the sums.
fn add_to_node(node: usize, mass: u64, x: i64, y: i64) -> Result<(), Refusal> {
    let (records, mut sums) = scattered();
    let mut grid = Grid::zero(20);
    (grid.mass[node], grid.x[node], grid.y[node]) = (mass, x, y);
    let before = grid.clone();
    let answer = adding_scatter(OBLONG, &records, &mut grid.buffers());
    if answer.is_ok() {
        sums.mass[node] += mass;
        sums.x[node] += x;
        sums.y[node] += y;
        assert_eq!(grid, sums);
    } else {
        assert_eq!(grid, before);
    }
    answer
}

#[test]
fn present_nodes() {
    for node in 0..20 {
        let refused = Err(Refusal::at(20, node));
        for mass in [0, 1, 3, 1 << 42] {
            let most = 457_536 * mass as i64;
            for sign in [1, -1] {
                let (last, next) = (sign * most, sign * (most + 1));
                assert_eq!(add_to_node(node, mass, last, -last), Ok(()));
                assert_eq!(add_to_node(node, mass, next, -last), refused);
                assert_eq!(add_to_node(node, mass, -last, next), refused);
            }
        }
        for mass in [0, 1, 1 << 43, (1 << 43) + 1, u64::MAX] {
            for momentum in [i64::MIN, i64::MAX] {
                assert_eq!(add_to_node(node, mass, momentum, 0), refused);
                assert_eq!(add_to_node(node, mass, 0, momentum), refused);
            }
        }
        assert_eq!(add_to_node(node, (1 << 43) + 1, 0, 0), refused);
        assert_eq!(add_to_node(node, u64::MAX, 0, 0), refused);
    }
}

#[test]
fn added_masses() {
    let (_, shares) = scattered();
    for (node, share) in shares.mass.into_iter().enumerate() {
        let last = (1 << 43) - share;
        let most = 457_536 * last as i64;
        assert_eq!(add_to_node(node, last, most, -most), Ok(()));
        let number = if share == 0 { 20 } else { 21 };
        let refused = Err(Refusal::at(number, node));
        assert_eq!(add_to_node(node, last + 1, most, -most), refused);
        let beyond = Err(Refusal::at(20, node));
        assert_eq!(add_to_node(node, last + 1, most + 457_537, 0), beyond);
    }
}

/// The lowest node comes first, whichever of 20 and 21 it gets.
#[test]
fn lowest_node_first() {
    let (records, shares) = scattered();
    let reached: Vec<usize> = (0..20).filter(|&node| shares.mass[node] > 0).collect();
    for &heavy in &reached {
        for fast in (0..20).filter(|&node| node != heavy) {
            let mut grid = Grid::filled(20, 9, 8, -7);
            grid.mass[heavy] = 1 << 43;
            grid.y[fast] = -9 * 457_536 - 1;
            let before = grid.clone();
            let answer = adding_scatter(OBLONG, &records, &mut grid.buffers());
            let expected = if heavy < fast {
                Refusal::at(21, heavy)
            } else {
                Refusal::at(20, fast)
            };
            assert_eq!((answer, grid), (Err(expected), before));
        }
    }
}

/// Update's answer for one node, and the node's x velocity.
fn update_node(mass: u64, momentum: i64, g: i128) -> (Result<(), Refusal>, i64) {
    let mut grid = Grid::zero(16);
    (grid.mass[0], grid.x[0]) = (mass, momentum);
    let answer = update(Settings::new(SMALL, g, 0), &mut grid.buffers());
    (answer, grid.x[0])
}

#[test]
fn node_masses() {
    assert_eq!(update_node(1 << 43, 0, 7), (Ok(()), 7));
    assert_eq!(update_node((1 << 43) + 1, 5, 7), (refused(11), 5));
    assert_eq!(update_node(u64::MAX, 5, 7), (refused(11), 5));
    assert_eq!(update_node(0, 0, 7), (Ok(()), 0));
    assert_eq!(update_node(0, 1, 7), (refused(11), 1));
    assert_eq!(update_node(0, i64::MIN, 7), (refused(11), i64::MIN));
    assert_eq!(update_node(1, i64::MIN, 4096), (refused(12), i64::MIN));
    assert_eq!(
        update_node(1 << 43, i64::MIN, 4096),
        (refused(12), i64::MIN)
    );
    assert_eq!(
        update_node(1 << 43, i64::MAX, -4096),
        (refused(12), i64::MAX)
    );
}

/// The half above an even velocity is the last accepted; above an odd one it is beyond, and the twelfth
/// before it is the last.
#[test]
fn node_velocities_of_update() {
    for sign in [1, -1] {
        for (velocity, twelfths, g) in [
            (131_072, 6, 0),
            (126_976, 6, 4096),
            (135_168, 6, -4096),
            (131_071, 5, 1),
            (131_073, 5, -1),
        ] {
            let (last, g) = (sign * (12 * velocity + twelfths), i128::from(sign) * g);
            let next = last + sign;
            assert_eq!(update_node(3, last, g), (Ok(()), sign * 131_072));
            assert_eq!(update_node(3, next, g), (refused(12), next));
        }
    }
}

/// Gather of one particle from the same velocity at all nodes.
fn gather_uniform(start: Particle, ux: i64, uy: i64) -> (Result<(), Refusal>, Particle) {
    let size = Size::new(8, 8);
    let mut record = start.pack();
    let answer = gather(size, &mut record, &[ux; 64], &[uy; 64]);
    (answer, Particle::unpack(&record))
}

#[test]
fn gathered_velocity() {
    let start = Particle::at_rest(3, 9, 200, 200);
    for (u, v) in [
        (0, 0),
        (127, 0),
        (128, 0),
        (129, 1),
        (383, 1),
        (384, 2),
        (640, 2),
        (641, 3),
        (16_000, 62),
        (16_255, 63),
    ] {
        for sign in [1, -1] {
            let (u, v) = (sign * u, i128::from(sign) * v);
            let moved = |x, y| Particle::at_rest(3, 9, 200 + x, 200 + y).moving(x, y);
            assert_eq!(gather_uniform(start, u, 0), (Ok(()), moved(v, 0)));
            assert_eq!(gather_uniform(start, 0, u), (Ok(()), moved(0, v)));
        }
    }
    for u in [16_256, -16_256, 131_072, -131_072] {
        assert_eq!(gather_uniform(start, u, 0), (refused(13), start));
        assert_eq!(gather_uniform(start, 0, u), (refused(13), start));
    }
    for u in [131_073, -131_073, i64::MIN, i64::MAX] {
        assert_eq!(gather_uniform(start, u, 0), (refused(12), start));
        assert_eq!(gather_uniform(start, 0, u), (refused(12), start));
    }
}

/// Gather from velocities that are −a left (or below) of the particle's node and a beyond it: B is
/// a/16 rounded.
fn gather_gradient(a: i64, entry: usize) -> (Result<(), Refusal>, [i128; 4]) {
    let gradient: Vec<i64> = (0..64_i64)
        .map(|node| {
            a * (if [0, 2].contains(&entry) {
                node % 8
            } else {
                node / 8
            } - 3)
                .signum()
        })
        .collect();
    let mut record = Particle::at_rest(3, 9, 192, 192).pack();
    let still = vec![0; 64];
    let (x, y) = if entry < 2 {
        (&gradient, &still)
    } else {
        (&still, &gradient)
    };
    let answer = gather(Size::new(8, 8), &mut record, x, y);
    (answer, Particle::unpack(&record).b())
}

#[test]
fn gathered_b() {
    let cases = [
        (7, 0),
        (8, 0),
        (9, 1),
        (23, 1),
        (24, 2),
        (40, 2),
        (41, 3),
        (32_744, 2046),
        (32_752, 2047),
        (32_759, 2047),
    ];
    for entry in 0..4 {
        for sign in [1, -1] {
            for (a, b) in cases {
                let mut expected = [0; 4];
                expected[entry] = i128::from(sign) * b;
                assert_eq!(gather_gradient(sign * a, entry), (Ok(()), expected));
            }
            assert_eq!(gather_gradient(sign * 32_760, entry), (refused(14), [0; 4]));
        }
    }
}

#[test]
fn gathered_place() {
    // On 8 nodes a coordinate is 32 to 415.
    for (place, v, accepted) in [
        (33, -1, true),
        (33, -2, false),
        (95, -63, true),
        (94, -63, false),
        (414, 1, true),
        (414, 2, false),
        (352, 63, true),
        (353, 63, false),
    ] {
        let u = 256 * v as i64;
        let expected = if accepted { Ok(()) } else { refused(15) };
        let along_x = Particle::at_rest(3, 9, place, 200);
        assert_eq!(gather_uniform(along_x, u, 0).0, expected);
        let along_y = Particle::at_rest(3, 9, 200, place);
        assert_eq!(gather_uniform(along_y, 0, u).0, expected);
    }
}

/// 13 before 14 before 15 at one record; a lower record first; no record moves.
#[test]
fn gather_refuses_in_order() {
    let size = Size::new(8, 8);
    let edge = Particle::at_rest(1, 1, 32, 200);
    let middle = Particle::at_rest(2, 1, 200, 200);
    let check = |particles: &[Particle], u: &[i64], expected: Refusal| {
        let mut records = pack_records(particles);
        let before = records.clone();
        let answer = gather(size, &mut records, u, &[0; 64]);
        assert_eq!((answer, records), (Err(expected), before));
    };
    let fast_left = [-131_072; 64];
    check(&[edge], &fast_left, Refusal::at(13, 0));
    let stretched: Vec<i64> = (0..64)
        .map(|node| if node % 8 == 0 { -60_000 } else { 8192 })
        .collect();
    check(&[edge, middle], &stretched, Refusal::at(13, 0));
    let steep: Vec<i64> = (0..64)
        .map(|node| if node % 8 == 0 { -80_000 } else { 60_000 })
        .collect();
    check(&[edge], &steep, Refusal::at(14, 0));
    check(&[edge, middle], &[-256; 64], Refusal::at(15, 0));
    let second = Particle {
        identifier: 3,
        ..edge
    };
    check(&[middle, second], &[-256; 64], Refusal::at(15, 1));
}

/// The largest masses and momenta of an accepted set fit 64 bits.
#[test]
fn largest_node_sums() {
    let heavy = |particle: Particle| -> Vec<u8> {
        (0..=128_u16)
            .flat_map(|identifier| {
                let mass = if identifier < 128 { 1023 } else { 128 };
                Particle {
                    identifier,
                    mass,
                    ..particle
                }
                .pack()
            })
            .collect()
    };
    let mut grid = Grid::filled(16, 1, 1, 1);
    scatter(SMALL, &heavy(at(0)), &mut grid.buffers()).unwrap();
    assert_eq!(grid.mass[5], 131_072 * 6144 * 6144);
    assert_eq!(grid.mass.iter().sum::<u64>(), 1 << 43);
    let fast = at(0).moving(63, -63).with_b([2047, 2047, -2047, -2047]);
    scatter(SMALL, &heavy(fast), &mut grid.buffers()).unwrap();
    let weighted = |w: i64, affine: i64| 131_072 * w * (1024 * 63 + 2047 * affine);
    assert_eq!(grid.x[5], weighted(6144 * 6144, 0));
    assert_eq!(grid.y[10], -weighted(1024 * 1024, 128));
}

fn file(nx: i128, count: i128, steps: i128, spare: i128, length: usize) -> Vec<u8> {
    let header = Header {
        settings: Settings::new(Size::new(nx, 4), -4096, 4096),
        count,
        steps,
    };
    let records = (0..count as u16).flat_map(|k| at(k).pack());
    let mut file: Vec<u8> = header.pack(spare).into_iter().chain(records).collect();
    file.resize(length, 0);
    file
}

#[test]
fn files() {
    let one = HEADER_LENGTH + RECORD_LENGTH;
    let most = HEADER_LENGTH + MAX_SET_LENGTH;
    assert_eq!(
        read_file(&file(4, 4096, 10_000, 0, most)).unwrap().count,
        4096
    );
    let beyond = most + RECORD_LENGTH;
    assert_eq!(read_file(&file(4, 4097, 10_000, 0, beyond)), refused(3));
    assert_eq!(read_file(&file(4, 8191, 16_383, 511, 11)), refused(3));
    assert_eq!(read_file(&file(4, 0, 10_001, 511, 11)), refused(17));
    assert_eq!(
        read_file(&file(48, 0, 10_000, 0, 11)).unwrap().steps,
        10_000
    );
    assert_eq!(read_file(&file(63, 0, 10_000, 0, 11)), refused(2));
    for bit in 0..9 {
        assert_eq!(read_file(&file(4, 1, 1, 1 << bit, one - 1)), refused(16));
    }
    for length in [9, 10, 11, one - 1, one + 1, one + RECORD_LENGTH] {
        assert_eq!(read_file(&file(4, 1, 1, 0, length)), refused(1));
    }
    assert_eq!(program(&file(4, 1, 1, 0, 100_000)), "refused 1 at 0\n");
    assert_eq!(program(&vec![0x41; 100_000]), "refused 18 at 0\n");
    assert_eq!(program(&vec![0x70; 100_000]), "refused 16 at 0\n");
}
