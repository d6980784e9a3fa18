//! The bench and the lesson page: the page's limits in every operation that has them, their place among
//! the other checks, and the same outcome for both callers within them.

use std::collections::BTreeMap;

use reference::bath_file::{pack_file, LAYOUT};
use reference::bits::unpack;
use reference::generator::Generator;
use reference::limits::{HEADER_LENGTH, MAX_SET_LENGTH, RECORD_LENGTH, STORE_LENGTH};
use reference::particle_set::pack_records;
use reference::{
    adding_scatter_for, check_set_for, gather_for, keep_for, read_file_for, run_for, scatter_for,
    step_for, totals_for, update_for,
};
use reference::{forget, keep, read_file, return_to};
use reference::{Caller, Edge, Grid, Header, Particle, Refusal, Settings, Size, Store, Sums};

/// What an operation is given, and then what it leaves; each takes its part.
#[derive(Clone, Debug, PartialEq)]
struct Given {
    settings: Settings,
    steps: i128,
    records: Vec<u8>,
    grid: Grid,
    file: Vec<u8>,
    store: Vec<u8>,
    name: Vec<u8>,
}

impl Given {
    /// A bath of a set with its grid and its file, and an empty store.
    fn new(settings: Settings, steps: i128, particles: &[Particle]) -> Self {
        Given {
            settings,
            steps,
            records: pack_records(particles),
            grid: Grid::filled(settings.size.nodes(), 9, -8, 7),
            file: pack_file(settings, steps, particles),
            store: vec![0; STORE_LENGTH],
            name: b"BATH".to_vec(),
        }
    }

    fn with_grid(self, grid: Grid) -> Self {
        Given { grid, ..self }
    }
}

/// The values that a call hands out, and its refusal.
type Answer = (Vec<i128>, Option<Refusal>);

fn answer<T>(result: Result<T, Refusal>, values: impl Fn(T) -> Vec<i128>) -> Answer {
    match result {
        Ok(handed) => (values(handed), None),
        Err(refusal) => (Vec::new(), Some(refusal)),
    }
}

fn done(result: Result<(), Refusal>) -> Answer {
    answer(result, |()| Vec::new())
}

type Call = fn(Caller, &mut Given) -> Answer;

const SUMS: Sums = Sums::Nearby;

/// The operations on a set that is given directly.
const ON_SETS: [(&str, Call); 7] = [
    ("check a set", |caller, given| {
        let found = check_set_for(caller, given.settings.size, &given.records);
        answer(found, |count| vec![count as i128])
    }),
    ("totals", |caller, given| {
        let found = totals_for(caller, given.settings.size, &given.records);
        answer(found, |totals| totals.values().to_vec())
    }),
    ("scatter", |caller, given| {
        let (size, grid) = (given.settings.size, &mut given.grid.buffers());
        done(scatter_for(caller, SUMS, size, &given.records, grid))
    }),
    ("adding scatter", |caller, given| {
        let (size, grid) = (given.settings.size, &mut given.grid.buffers());
        done(adding_scatter_for(caller, SUMS, size, &given.records, grid))
    }),
    ("gather", |caller, given| {
        let (size, Grid { x, y, .. }) = (given.settings.size, &given.grid);
        done(gather_for(caller, SUMS, size, &mut given.records, x, y))
    }),
    ("step", |caller, given| {
        let (records, grid) = (&mut given.records, &mut given.grid.buffers());
        done(step_for(caller, SUMS, given.settings, records, grid))
    }),
    ("run", |caller, given| {
        let (records, grid) = (&mut given.records, &mut given.grid.buffers());
        let ran = run_for(caller, SUMS, given.settings, given.steps, records, grid);
        (vec![ran.completed as i128], ran.refusal)
    }),
];

const UPDATE: (&str, Call) = ("update", |caller, given| {
    done(update_for(
        caller,
        given.settings,
        &mut given.grid.buffers(),
    ))
});

/// The operations on a file.
const ON_FILES: [(&str, Call); 2] = [
    ("read a file", |caller, given| {
        let found = read_file_for(caller, &given.file);
        answer(found, |header| header.values().to_vec())
    }),
    ("keep", |caller, given| {
        done(keep_for(caller, &mut given.store, &given.name, &given.file))
    }),
];

fn operations() -> impl Iterator<Item = (&'static str, Call)> {
    ON_SETS.into_iter().chain([UPDATE]).chain(ON_FILES)
}

/// Whether the operation has grid buffers.
fn has_grid(name: &str) -> bool {
    !["check a set", "totals", "read a file", "keep"].contains(&name)
}

/// What the call answers and leaves.
fn called(call: Call, caller: Caller, given: &Given) -> (Answer, Given) {
    let mut after = given.clone();
    (call(caller, &mut after), after)
}

/// The call is refused so, and changes nothing.
fn refuses(name: &str, call: Call, caller: Caller, given: &Given, number: u32, place: usize) {
    let (answer, after) = called(call, caller, given);
    let expected = Some(Refusal::at(number, place));
    assert_eq!(answer.1, expected, "{name} for {caller:?}");
    assert!(after == *given, "{name} for {caller:?}");
}

/// Both callers get the same outcome, and are not refused.
fn both_accept(name: &str, call: Call, given: &Given) {
    let bench = called(call, Caller::Bench, given);
    assert_eq!(bench.0 .1, None, "{name}");
    assert!(called(call, Caller::Page, given) == bench, "{name}");
}

/// The page is refused so, the bench not.
fn only_the_bench_accepts(name: &str, call: Call, given: &Given, number: u32) {
    refuses(name, call, Caller::Page, given, number, 0);
    let (answer, _) = called(call, Caller::Bench, given);
    assert_eq!(answer.1, None, "{name}");
}

/// So many particles of small mass in the middle of 5 by 4 nodes.
fn particles(count: u16) -> Vec<Particle> {
    let at = |k: u16| Particle::at_rest(k, 3, 96 + i128::from(k % 50), 90 + i128::from(k % 7));
    (0..count).map(at).collect()
}

fn bath(nx: i128, ny: i128, count: u16) -> Given {
    let settings = Settings::new(Size::new(nx, ny), 5, -3)
        .with_edge(Edge::slip(1))
        .with_drag(9);
    Given::new(settings, 2, &particles(count))
}

#[test]
fn nodes_of_the_page() {
    for (name, call) in operations() {
        for (nx, ny) in [(16, 5), (5, 16), (16, 16), (4, 16)] {
            both_accept(name, call, &bath(nx, ny, 3));
        }
        for (nx, ny) in [(17, 5), (5, 17), (17, 16), (16, 17), (48, 4), (4, 48)] {
            only_the_bench_accepts(name, call, &bath(nx, ny, 3), 2);
        }
        for (nx, ny) in [(3, 16), (16, 3), (49, 4), (4, 49), (3, 17), (17, 3)] {
            for caller in Caller::ALL {
                refuses(name, call, caller, &bath(nx, ny, 3), 2, 0);
            }
        }
    }
}

#[test]
fn records_of_the_page() {
    for (name, call) in ON_SETS.into_iter().chain(ON_FILES) {
        for (nx, ny, count) in [(5, 4, 512), (16, 15, 512), (16, 16, 511), (4, 5, 0)] {
            both_accept(name, call, &bath(nx, ny, count));
        }
        for (nx, ny, count) in [(5, 4, 513), (16, 15, 513), (4, 5, 4096)] {
            only_the_bench_accepts(name, call, &bath(nx, ny, count), 3);
        }
    }
}

/// More records than any caller may give are refused as a length.
#[test]
fn too_many_records_for_both() {
    let given = Given {
        records: vec![0; MAX_SET_LENGTH + RECORD_LENGTH],
        ..bath(5, 4, 0)
    };
    for (name, call) in ON_SETS {
        for caller in Caller::ALL {
            refuses(name, call, caller, &given, 1, 0);
        }
    }
}

/// 2 comes before 1, and before 3.
#[test]
fn two_before_one_and_three() {
    let short = Grid::filled(19, 9, -8, 7);
    for given in [bath(17, 4, 513), bath(5, 17, 513), bath(3, 16, 513)] {
        let broken = Given {
            records: vec![0; 1],
            ..given.clone().with_grid(short.clone())
        };
        for (name, call) in ON_SETS.into_iter().chain([UPDATE]) {
            refuses(name, call, Caller::Page, &given, 2, 0);
            refuses(name, call, Caller::Page, &broken, 2, 0);
        }
    }
}

/// The length of the set and those of all grid buffers come before 3.
#[test]
fn one_before_three() {
    let given = bath(5, 4, 513);
    for (name, call) in ON_SETS {
        for more in [1, 14] {
            let mut longer = given.clone();
            longer.records.extend(vec![0; more]);
            refuses(name, call, Caller::Page, &longer, 1, 0);
        }
        let changes: [fn(&mut Grid); 6] = [
            |grid| grid.mass.push(9),
            |grid| grid.mass.truncate(19),
            |grid| grid.x.push(9),
            |grid| grid.x.clear(),
            |grid| grid.y.push(9),
            |grid| grid.y.truncate(19),
        ];
        // Gather has no masses.
        let skipped = if name == "gather" { 2 } else { 0 };
        for change in changes.into_iter().skip(skipped).filter(|_| has_grid(name)) {
            let mut given = given.clone();
            change(&mut given.grid);
            refuses(name, call, Caller::Page, &given, 1, 0);
        }
    }
}

fn change_first(given: &mut Given, change: fn(&mut Particle)) {
    let mut first = particles(1)[0];
    change(&mut first);
    given.records[..RECORD_LENGTH].copy_from_slice(&first.pack());
}

/// 3 comes before gravity, edge, drag, steps, the set and the nodes.
#[test]
fn three_before_what_follows() {
    type Change = fn(&mut Given);
    let changes: [(u32, Change); 14] = [
        (10, |given| given.settings.gx = 4097),
        (10, |given| given.settings.gy = -4097),
        (18, |given| given.settings.edge = Edge::new(3, 1)),
        (19, |given| given.settings.drag = 256),
        (17, |given| given.steps = 10_001),
        (4, |given| change_first(given, |p| p.mass = 0)),
        (5, |given| change_first(given, |p| p.vy = -64)),
        (6, |given| change_first(given, |p| p.bxy = -2048)),
        (7, |given| change_first(given, |p| p.x = 31)),
        (8, |given| change_first(given, |p| p.identifier = 1)),
        (9, |given| {
            let particles = particles(513).into_iter();
            let heavy = particles.map(|p| Particle { mass: 1023, ..p });
            given.records = pack_records(&heavy.collect::<Vec<_>>());
        }),
        (20, |given| given.grid.mass[3] = (1 << 43) + 1),
        (21, |given| given.grid.mass[6] = 1 << 43),
        (12, |given| given.grid.x[19] = 131_073),
    ];
    let mut seen: BTreeMap<&str, Vec<u32>> = BTreeMap::new();
    for (number, change) in changes {
        let mut given = bath(5, 4, 513);
        change(&mut given);
        for (name, call) in ON_SETS {
            let (bench, _) = called(call, Caller::Bench, &given);
            let number_seen = bench.1.map(|refusal| refusal.number);
            if number_seen == Some(number) {
                seen.entry(name).or_default().push(number);
            } else {
                assert_eq!(number_seen, None, "{name}");
            }
            refuses(name, call, Caller::Page, &given, 3, 0);
        }
    }
    for (name, numbers) in [
        ("check a set", &[4, 5, 6, 7, 8, 9][..]),
        ("totals", &[4, 5, 6, 7, 8, 9]),
        ("scatter", &[4, 5, 6, 7, 8, 9]),
        ("adding scatter", &[4, 5, 6, 7, 8, 9, 20, 21]),
        ("gather", &[4, 5, 6, 7, 8, 9, 12]),
        ("step", &[10, 10, 18, 19, 4, 5, 6, 7, 8, 9]),
        ("run", &[10, 10, 18, 19, 17, 4, 5, 6, 7, 8, 9]),
    ] {
        assert_eq!(seen[name], numbers, "{name}");
    }
}

/// A file with a broken header is refused so by the page, and so by the bench (0 for not at all).
#[test]
fn a_file_for_the_page() {
    let header = |count: i128| {
        let given = bath(5, 4, 513);
        Header {
            settings: given.settings,
            count,
            steps: 10_000,
        }
    };
    let size = |nx, ny, header: Header| Header {
        settings: Settings {
            size: Size::new(nx, ny),
            ..header.settings
        },
        ..header
    };
    let gravity = |gx, header: Header| Header {
        settings: Settings {
            gx,
            ..header.settings
        },
        ..header
    };
    let edge = |kind, header: Header| Header {
        settings: header.settings.with_edge(Edge::new(kind, 0)),
        ..header
    };
    let steps = |steps, header: Header| Header { steps, ..header };
    let (right, spare) = (0, 1 << 8);
    let cases = [
        // The header, its spare bits, how many bytes more than it says, the page, the bench.
        (header(512), 0, right, 0, 0),
        (header(513), 0, right, 3, 0),
        (header(513), 0, 1, 3, 1),
        (header(513), 0, -15, 3, 1),
        (header(512), 0, 1, 1, 1),
        (header(512), 0, 15, 1, 1),
        (header(4096), 0, right, 3, 0),
        (header(4097), 0, right, 3, 3),
        (header(8191), 0, right, 3, 3),
        // After 2, 10 and 18.
        (size(17, 4, header(513)), 0, right, 2, 0),
        (size(4, 17, gravity(4097, header(513))), 0, right, 2, 10),
        (gravity(4097, edge(3, header(513))), 0, right, 10, 10),
        (edge(3, steps(10_001, header(513))), 0, right, 18, 18),
        // Before 17 and 16.
        (steps(10_001, header(513)), spare, 1, 3, 17),
        (header(513), spare, 1, 3, 16),
        (steps(10_001, header(512)), spare, 1, 17, 17),
        (header(512), spare, 1, 16, 16),
    ];
    for (header, spare, more, page, bench) in cases {
        let mut file = header.pack(spare).to_vec();
        file.extend(pack_records(&particles(header.count as u16)));
        file.resize(file.len().strict_add_signed(more), 0);
        let given = Given {
            file,
            ..bath(5, 4, 0)
        };
        for (name, call) in ON_FILES {
            for (caller, number) in [(Caller::Page, page), (Caller::Bench, bench)] {
                if number == 0 {
                    assert_eq!(called(call, caller, &given).0 .1, None, "{name} {header:?}");
                } else {
                    refuses(name, call, caller, &given, number, 0);
                }
            }
        }
    }
    // Before the set, whose first record has no mass.
    for (count, page) in [(512, (4, 0)), (513, (3, 0))] {
        let mut given = bath(5, 4, count);
        given.file[HEADER_LENGTH + 2..][..2].copy_from_slice(&[0, 6]);
        for (name, call) in ON_FILES {
            refuses(name, call, Caller::Page, &given, page.0, page.1);
            refuses(name, call, Caller::Bench, &given, 4, 0);
        }
    }
}

/// A store that holds these names with these baths.
fn store(held: &[(&[u8], Vec<u8>)]) -> Vec<u8> {
    let mut store = vec![0; STORE_LENGTH];
    for (name, file) in held {
        keep(&mut store, name, file).expect("a bath that the bench accepts");
    }
    store
}

/// The store and the name come before the page's limits, and these before a full store.
#[test]
fn the_order_of_keep_for_the_page() {
    let (_, call) = ON_FILES[1];
    let full = store(&[
        (b"A", bath(48, 4, 4096).file),
        (b"B", bath(5, 17, 0).file),
        (b"C", bath(17, 5, 513).file),
        (b"D", bath(5, 4, 2).file),
    ]);
    let mut damaged = full.clone();
    damaged[0] = b'a';
    for (file, number) in [(bath(17, 4, 1).file, 2), (bath(5, 4, 513).file, 3)] {
        for (store, name, refusal) in [
            (&damaged, &b"BATH"[..], 1),
            (&damaged, b"bath", 1),
            (&full, b"bath", 22),
            (&full, b"BATH", number),
            (&full, b"D", number),
        ] {
            let given = Given {
                store: store.clone(),
                name: name.to_vec(),
                file: file.clone(),
                ..bath(5, 4, 0)
            };
            refuses("keep", call, Caller::Page, &given, refusal, 0);
        }
    }
    let given = Given {
        store: full,
        ..bath(5, 4, 512)
    };
    refuses("keep", call, Caller::Page, &given, 24, 0);
}

/// A store with a bath that only the bench accepts is of the form whoever calls, and stays so.
#[test]
fn a_store_with_a_bath_of_the_bench() {
    let (large, wide) = (bath(48, 4, 4096).file, bath(17, 16, 0).file);
    for held in [&large, &wide] {
        assert!(read_file_for(Caller::Page, held).is_err());
        let before = store(&[(b"BENCH", held.clone())]);
        let page = bath(16, 15, 512).file;
        let (mut by_page, mut by_bench) = (before.clone(), before.clone());
        assert_eq!(keep_for(Caller::Page, &mut by_page, b"PAGE", &page), Ok(()));
        assert_eq!(keep(&mut by_bench, b"PAGE", &page), Ok(()));
        assert!(by_page == by_bench);
        let read = Store::read(&by_page).expect("a store of the form");
        assert_eq!(read.held(b"BENCH"), Some(&held[..]));
        assert_eq!(read.held(b"PAGE"), Some(&page[..]));
        // Replaced by the page, and given back.
        assert_eq!(
            keep_for(Caller::Page, &mut by_page, b"BENCH", &page),
            Ok(())
        );
        let mut buffer = vec![0x5A; HEADER_LENGTH + MAX_SET_LENGTH];
        let length = return_to(&by_page, b"BENCH", &mut buffer).expect("a name that is held");
        assert_eq!(&buffer[..length], page);
        assert_eq!(forget(&mut by_page, b"BENCH"), Ok(()));
        assert_eq!(read_file(&page), read_file_for(Caller::Page, &page));
    }
}

/// A number that differs from its limits now and then.
fn damaged(numbers: &mut Generator, number: i128, others: &[i128]) -> i128 {
    if numbers.once_in(12) {
        numbers.one_of(others)
    } else {
        number
    }
}

/// Settings, records, a grid and a file about these ends, valid or damaged.
fn random(numbers: &mut Generator, sizes: &[i128], counts: &[i128]) -> Given {
    let size = Size::new(numbers.one_of(sizes), numbers.one_of(sizes));
    let on = Size::new(size.nx.max(4), size.ny.max(4));
    let count = numbers.one_of(counts) as usize;
    let speed = numbers.one_of(&[0, 2, 20]);
    let mut particles = numbers.particles(on, count, speed, 40 * speed);
    for p in particles.iter_mut().filter(|_| speed > 0) {
        p.mass = p.mass.min(131_072 / count.max(1) as i128);
    }
    let mut settings = Settings::new(size, numbers.between(-60, 60), numbers.between(-60, 60))
        .with_edge(numbers.edge())
        .with_drag(numbers.one_of(&[0, 30, 255]));
    let mut steps = numbers.one_of(&[0, 1, 3]);
    settings.gx = damaged(numbers, settings.gx, &[4096, 4097, -4097]);
    settings.edge.kind = damaged(numbers, settings.edge.kind, &[0, 1, 3]);
    settings.drag = damaged(numbers, settings.drag, &[255, 256]);
    steps = damaged(numbers, steps, &[10_001, 16_383]);
    let mut given = Given::new(settings, steps, &particles);
    for bytes in [&mut given.records, &mut given.file] {
        if numbers.once_in(6) && !bytes.is_empty() {
            let at = numbers.between(0, bytes.len() as i128 - 1) as usize;
            bytes[at] ^= 1 << numbers.between(0, 7);
        }
        let more = damaged(numbers, 0, &[1, 14, 15]);
        bytes.extend(vec![0; more as usize]);
    }
    let nodes = given.grid.mass.len();
    for node in 0..nodes {
        given.grid.mass[node] = numbers.between(1, 1 << 20) as u64;
        given.grid.x[node] = numbers.between(-900, 900) as i64;
        given.grid.y[node] = numbers.between(-900, 900) as i64;
    }
    if nodes > 0 && numbers.once_in(6) {
        let node = numbers.between(0, nodes as i128 - 1) as usize;
        match numbers.between(0, 3) {
            0 => given.grid.mass[node] = (1 << 43) + 1,
            1 => given.grid.x[node] = i64::MAX,
            2 => given.grid.y.truncate(node),
            _ => given.grid.mass.push(1),
        }
    }
    if numbers.once_in(8) {
        given.name = b"bath".to_vec();
    }
    if numbers.once_in(4) {
        let held = [(&b"BATH"[..], 17, 513), (b"A", 5, 2), (b"B", 48, 9)];
        let held = held.map(|(name, nx, count)| (name, bath(nx, 4, count).file));
        given.store = store(&held[..numbers.between(1, 3) as usize]);
    }
    if numbers.once_in(12) {
        given.store[2] ^= 0x41;
    }
    given
}

/// Nx, Ny and the count of a file that has a header.
fn told(file: &[u8]) -> Option<[i128; 3]> {
    let [nx, ny, _, _, count, ..] = unpack(&LAYOUT, file.get(..HEADER_LENGTH)?);
    Some([nx, ny, count])
}

fn is_on_files(name: &str) -> bool {
    ON_FILES.iter().any(|(on_files, _)| *on_files == name)
}

/// Whether what the operation is given keeps to the page's limits.
fn is_within(name: &str, given: &Given) -> bool {
    let Size { nx, ny } = given.settings.size;
    let count = match name {
        "update" => 0,
        _ => (given.records.len() / RECORD_LENGTH) as i128,
    };
    let held = if is_on_files(name) {
        told(&given.file)
    } else {
        Some([nx, ny, count])
    };
    held.is_none_or(|[nx, ny, count]| nx <= 16 && ny <= 16 && count <= 512)
}

/// Whether the set's length or that of a buffer is wrong.
fn is_of_wrong_length(name: &str, given: &Given) -> bool {
    let (length, Grid { mass, x, y }) = (given.records.len(), &given.grid);
    let buffers: &[usize] = match name {
        "check a set" | "totals" => &[],
        "gather" => &[x.len(), y.len()],
        _ => &[mass.len(), x.len(), y.len()],
    };
    let nodes = given.settings.size.nodes();
    let whole = length.is_multiple_of(15) && length <= 61_440;
    !whole || buffers.iter().any(|&buffer| buffer != nodes)
}

/// The page's refusal of what is beyond its limits, given the bench's.
fn expected(name: &str, given: &Given, bench: Option<Refusal>) -> Option<Refusal> {
    let number = bench.map_or(0, |refusal| refusal.number);
    if name == "keep" && (Store::read(&given.store).is_err() || number == 22) {
        return bench;
    }
    // Between 2 and 3.
    let (size, between) = if is_on_files(name) {
        let [nx, ny, _] = told(&given.file).expect("a header");
        (Size::new(nx, ny), [10, 18].contains(&number))
    } else {
        (given.settings.size, is_of_wrong_length(name, given))
    };
    if ![size.nx, size.ny].iter().all(|n| (4..=16).contains(n)) {
        Some(Refusal::at(2, 0))
    } else if between {
        bench
    } else {
        Some(Refusal::at(3, 0))
    }
}

/// How often each operation was refused so; 0 for not at all.
type Seen = BTreeMap<(&'static str, u32), usize>;

/// Within the page's limits both callers have the same outcome, refused or not; beyond them the page has
/// its refusal, and nothing is changed.
fn compare(given: &Given, seen: &mut Seen) {
    for (name, call) in operations() {
        let bench = called(call, Caller::Bench, given);
        let page = called(call, Caller::Page, given);
        if is_within(name, given) {
            assert!(page == bench, "{name}");
        } else {
            let refusal = expected(name, given, bench.0 .1);
            assert_eq!(page.0 .1, refusal, "{name}");
            assert!(page.1 == *given, "{name}");
        }
        let number = page.0 .1.map_or(0, |refusal| refusal.number);
        *seen.entry((name, number)).or_default() += 1;
    }
}

#[test]
fn within_the_limits_of_the_page() {
    let mut numbers = Generator::new(91);
    let mut seen = Seen::new();
    for _ in 0..700 {
        let sizes = [3, 4, 4, 5, 7, 9, 15, 16, 16, 16, 16, 16];
        let counts = [0, 1, 2, 5, 30, 30, 64, 130, 511, 512];
        compare(&random(&mut numbers, &sizes, &counts), &mut seen);
    }
    for (name, _) in operations() {
        assert!(seen[&(name, 0)] > 100, "{name}");
        let refused = seen.range((name, 1)..=(name, u32::MAX));
        assert!(refused.count() > 3, "{name}");
    }
}

#[test]
fn about_the_limits_of_the_page() {
    let mut numbers = Generator::new(92);
    let mut seen = Seen::new();
    for _ in 0..500 {
        let sizes = [4, 5, 9, 12, 15, 16, 16, 16, 16, 17, 20, 48];
        let counts = [0, 3, 40, 510, 511, 512, 512, 513, 513, 514, 700];
        compare(&random(&mut numbers, &sizes, &counts), &mut seen);
    }
    for (name, _) in operations() {
        let most = if name == "update" { 2 } else { 3 };
        for number in 0..=most {
            assert!(seen[&(name, number)] > 5, "{name} {number}");
        }
    }
}
