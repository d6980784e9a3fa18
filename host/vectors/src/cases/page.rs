//! The lesson page: its limits in every operation that has them, with the bench's answer to the same
//! call where it is another; and what both refuse or accept alike.

use std::collections::BTreeSet;

use reference::bath_file::pack_file;
use reference::limits::{HEADER_LENGTH, STORE_LENGTH};
use reference::particle_set::pack_records;
use reference::{keep, Caller, Edge, Header, Particle, Settings, Size};

use super::{broken, bytes, case_for, corners, marked, marked_records, used_grid, REFUSED_GRIDS};
use crate::text::prefix;
use crate::{Buffers, Case, Operation};

pub fn cases() -> Vec<Case> {
    let mut cases = Vec::new();
    for call in ON_SETS {
        cases.extend(sizes(call));
        cases.extend(counts(call));
        cases.extend(orders(call));
    }
    cases.extend(updates());
    cases.push(stopped_run());
    cases.extend(files());
    cases.extend(stores());
    cases
}

/// The bench's cases again for the page: the first of each operation and refusal whose outcome is the
/// same.
pub fn repeated(bench: &[Case]) -> Vec<Case> {
    let mut seen = BTreeSet::new();
    let mut cases = Vec::new();
    for bench in bench.iter().filter(|case| has_caller(case.operation)) {
        let stated = bench.stated.map(|refusal| (refusal.number, refusal.place));
        let told = (word(bench.operation), stated.map(|(number, _)| number));
        if bench.name.starts_with("list/") || seen.contains(&told) {
            continue;
        }
        let name = format!("{}{}", prefix(Caller::Page), bench.name);
        let before = bench.before.clone();
        let page = case_for(Caller::Page, name, bench.operation, before, stated);
        if (&page.answer, &page.after) == (&bench.answer, &bench.after) {
            seen.insert(told);
            cases.push(page);
        }
    }
    cases
}

fn has_caller(operation: Operation) -> bool {
    !matches!(
        operation,
        Operation::ReadRecord
            | Operation::WriteRecord(_)
            | Operation::Weights(_)
            | Operation::WriteHeader(_)
            | Operation::Return
            | Operation::Forget
            | Operation::Program
    )
}

/// The operation's name.
fn word(operation: Operation) -> String {
    let text = operation.to_string();
    text.split(' ').next().unwrap_or_default().to_string()
}

/// A refusal's number and place, or none.
type Stated = Option<(u32, usize)>;

/// A call by the page.
fn page(name: &str, operation: Operation, before: Buffers, stated: Stated) -> Case {
    let name = format!("{}{}/{name}", prefix(Caller::Page), word(operation));
    case_for(Caller::Page, name, operation, before, stated)
}

/// A call by the page, which is refused with this number, and by the bench.
fn apart(
    name: &str,
    operation: Operation,
    before: Buffers,
    number: u32,
    stated: Stated,
) -> [Case; 2] {
    let bench = format!("{}/bench-{name}", word(operation));
    [
        page(name, operation, before.clone(), Some((number, 0))),
        case_for(Caller::Bench, bench, operation, before, stated),
    ]
}

/// An operation on a set, with these settings and steps.
type OnSet = fn(Settings, i128) -> Operation;

const ON_SETS: [OnSet; 7] = [
    |settings, _| Operation::CheckSet(settings.size),
    |settings, _| Operation::Totals(settings.size),
    |settings, _| Operation::Scatter(settings.size),
    |settings, _| Operation::AddingScatter(settings.size),
    |settings, _| Operation::Gather(settings.size),
    |settings, _| Operation::Step(settings),
    Operation::Run,
];

/// A grid with few nodes.
const OBLONG: Size = Size { nx: 5, ny: 4 };

fn settings(size: Size) -> Settings {
    Settings::new(size, 5, -3)
        .with_edge(Edge::slip(1))
        .with_drag(9)
}

/// What the operation takes of records and the buffers of a grid.
fn given(operation: Operation, records: Vec<u8>, size: Size) -> Buffers {
    let mut grid = used_grid(size);
    match operation {
        Operation::CheckSet(_) | Operation::Totals(_) => return bytes(records),
        Operation::Gather(_) => grid.mass.clear(),
        Operation::Update(_) => return Buffers::new(Vec::new(), grid),
        _ => {}
    }
    Buffers::new(records, grid)
}

/// So many particles, alike but for identifiers, at one place of 5 by 4 nodes.
fn particles(count: u16) -> Vec<Particle> {
    let at = |identifier| marked(Particle::at_rest(identifier, 3, 130, 90).moving(2, -1));
    (0..count).map(at).collect()
}

fn records(count: u16) -> Vec<u8> {
    pack_records(&particles(count))
}

const WITHIN: [(i128, i128); 3] = [(16, 5), (5, 16), (16, 16)];
const BEYOND: [(i128, i128); 4] = [(17, 5), (5, 17), (17, 16), (16, 17)];
const BELOW: [(i128, i128); 2] = [(3, 16), (16, 3)];

/// The most nodes on each axis, and one more; and too few.
fn sizes(call: OnSet) -> Vec<Case> {
    let at = |(nx, ny): (i128, i128)| {
        let size = Size::new(nx, ny);
        let operation = call(settings(size), 3);
        let records = if nx.min(ny) < 4 {
            records(1)
        } else {
            corners(size, 9)
        };
        let name = format!("{nx}-by-{ny}");
        (name, operation, given(operation, records, size))
    };
    let mut cases = Vec::new();
    for (name, operation, before) in WITHIN.map(at) {
        cases.push(page(&name, operation, before, None));
    }
    for (name, operation, before) in BEYOND.map(at) {
        cases.extend(apart(&name, operation, before, 2, None));
    }
    for (name, operation, before) in BELOW.map(at) {
        cases.push(page(&name, operation, before, Some((2, 0))));
    }
    cases
}

/// The most records, and one more; as many as the bench may give, and one more.
fn counts(call: OnSet) -> Vec<Case> {
    let operation = call(settings(OBLONG), 3);
    let name = |count: u16| format!("records-{count}");
    let of = |count: u16| given(operation, records(count), OBLONG);
    let mut cases = vec![
        page(&name(511), operation, of(511), None),
        page(&name(512), operation, of(512), None),
        page(&name(4097), operation, of(4097), Some((1, 0))),
    ];
    for count in [513, 4096] {
        cases.extend(apart(&name(count), operation, of(count), 3, None));
    }
    cases
}

/// What comes before 3, and what after.
fn orders(call: OnSet) -> Vec<Case> {
    let operation = call(settings(OBLONG), 3);
    let (few, many) = (records(512), records(513));
    let length = |name: &str, records: &[u8], more: usize| {
        let records = [records, &vec![0; more]].concat();
        let before = given(operation, records, OBLONG);
        page(name, operation, before, Some((1, 0)))
    };
    let mut cases = vec![
        length("512-records-and-14-bytes", &few, 14),
        length("513-records-and-a-byte", &many, 1),
    ];
    cases.extend(grids_before_three(operation, &many));
    for (nx, ny) in [(17, 4), (5, 17)] {
        let operation = call(broken(Size::new(nx, ny)), 10_001);
        let name = format!("2-before-3-on-{nx}-by-{ny}");
        let longer = [&many[..], &[0]].concat();
        let before = given(operation, many.clone(), OBLONG);
        cases.push(page(&name, operation, before, Some((2, 0))));
        let name = format!("2-before-1-on-{nx}-by-{ny}");
        let before = given(operation, longer, OBLONG);
        cases.push(page(&name, operation, before, Some((2, 0))));
    }
    cases.extend(three_before_settings(call, &many));
    cases.extend(three_before_the_set(operation));
    cases.extend(three_before_nodes(call, &many));
    cases
}

/// 513 records with buffers of wrong length.
fn grids_before_three(operation: Operation, many: &[u8]) -> Vec<Case> {
    let changes = match operation {
        Operation::CheckSet(_) | Operation::Totals(_) => &[][..],
        Operation::Gather(_) => &REFUSED_GRIDS[2..],
        _ => &REFUSED_GRIDS,
    };
    let refused = |(name, change): &(&str, fn(&mut _))| {
        let mut before = given(operation, many.to_vec(), OBLONG);
        change(&mut before.grid);
        let name = format!("1-before-3-{name}");
        page(&name, operation, before, Some((1, 0)))
    };
    changes.iter().map(refused).collect()
}

/// 513 records with settings or steps that are refused.
fn three_before_settings(call: OnSet, many: &[u8]) -> Vec<Case> {
    let valid = settings(OBLONG);
    let (edge, drag) = (valid.with_edge(Edge::sticky(0)), valid.with_drag(256));
    let refused = [
        (10, broken(OBLONG), 10_001),
        (18, edge, 3),
        (19, drag, 3),
        (17, valid, 10_001),
    ];
    let count = match call(valid, 3) {
        Operation::Run(..) => 4,
        Operation::Step(_) => 3,
        _ => 0,
    };
    let cases = refused[..count].iter().flat_map(|&(number, with, steps)| {
        let operation = call(with, steps);
        let before = given(operation, many.to_vec(), OBLONG);
        let name = format!("3-before-{number}");
        apart(&name, operation, before, 3, Some((number, 0)))
    });
    cases.collect()
}

/// 513 records of which one is refused.
fn three_before_the_set(operation: Operation) -> Vec<Case> {
    let changed = |place: usize, change: fn(&mut Particle)| {
        let mut particles = particles(513);
        change(&mut particles[place]);
        marked_records(&particles)
    };
    let mut heavy = particles(513);
    heavy.iter_mut().for_each(|p| p.mass = 1023);
    let sets = [
        (4, 0, changed(0, |p| p.mass = 0)),
        (5, 1, changed(1, |p| p.vy = -64)),
        (6, 2, changed(2, |p| p.byx = -2048)),
        (7, 512, changed(512, |p| p.y = 160)),
        (8, 3, changed(3, |p| p.identifier = 2)),
        (9, 128, marked_records(&heavy)),
    ];
    let cases = sets.into_iter().flat_map(|(number, place, records)| {
        let before = given(operation, records, OBLONG);
        let name = format!("3-before-{number}");
        apart(&name, operation, before, 3, Some((number, place)))
    });
    cases.collect()
}

/// 513 records with a node that is refused, or of which one leaves.
fn three_before_nodes(call: OnSet, many: &[u8]) -> Vec<Case> {
    let operation = call(Settings::new(OBLONG, 0, 0), 3);
    let mut before = given(operation, many.to_vec(), OBLONG);
    let stated = match operation {
        Operation::AddingScatter(_) => {
            before.grid.mass[6] = 1 << 43;
            (21, 6)
        }
        Operation::Gather(_) => {
            before.grid.y[19] = -131_073;
            (12, 19)
        }
        Operation::Step(_) | Operation::Run(..) => {
            let mut particles = particles(513);
            particles[0] = Particle::at_rest(0, 3, 222, 90).moving(9, 0);
            before.bytes = marked_records(&particles);
            (15, 0)
        }
        _ => return Vec::new(),
    };
    let name = format!("3-before-{}", stated.0);
    apart(&name, operation, before, 3, Some(stated)).into()
}

/// Update, which has no set.
fn updates() -> Vec<Case> {
    let update: OnSet = |settings, _| Operation::Update(settings);
    let mut cases = sizes(update);
    for (nx, ny) in [(17, 4), (5, 17)] {
        let operation = update(broken(Size::new(nx, ny)), 0);
        let name = format!("2-before-1-on-{nx}-by-{ny}");
        let before = given(operation, Vec::new(), OBLONG);
        cases.push(page(&name, operation, before, Some((2, 0))));
    }
    cases
}

/// A particle that gains a velocity of 1 each step, from 60 on.
fn stopped_run() -> Case {
    let size = Size::new(16, 5);
    let operation = Operation::Run(Settings::new(size, 256, 0), 9);
    let fast = Particle::at_rest(3, 7, 100, 90).moving(60, 0);
    let before = given(operation, marked_records(&[fast]), size);
    page(
        "stopped-at-its-4th-step-by-13",
        operation,
        before,
        Some((13, 0)),
    )
}

/// A file, and how page and bench refuse it; 0 where it is accepted.
type Told = (&'static str, Vec<u8>, u32, u32);

/// Files at the page's limits.
fn told_files() -> Vec<Told> {
    let header = |count: i128| Header {
        settings: settings(OBLONG),
        count,
        steps: 10_000,
    };
    let on = |nx, ny, header: Header| Header {
        settings: Settings {
            size: Size::new(nx, ny),
            ..header.settings
        },
        ..header
    };
    let pulled = |header: Header| Header {
        settings: Settings {
            gy: -4097,
            ..header.settings
        },
        ..header
    };
    let edged = |header: Header| Header {
        settings: header.settings.with_edge(Edge::new(3, 1)),
        ..header
    };
    let long = |header: Header| Header {
        steps: 10_001,
        ..header
    };
    let file = |header: Header, spare: i128, count: u16| {
        [&header.pack(spare)[..], &records(count)].concat()
    };
    let massless = |count: u16| {
        let mut particles = particles(count);
        particles[0].mass = 0;
        pack_file(settings(OBLONG), 9, &particles)
    };
    vec![
        ("16-by-15", file(on(16, 15, header(1)), 0, 1), 0, 0),
        ("15-by-16", file(on(15, 16, header(1)), 0, 1), 0, 0),
        ("17-by-4", file(on(17, 4, header(1)), 0, 1), 2, 0),
        ("5-by-17", file(on(5, 17, header(0)), 0, 0), 2, 0),
        ("17-by-16", file(on(17, 16, header(0)), 0, 0), 2, 0),
        ("count-512", file(header(512), 0, 512), 0, 0),
        ("count-513", file(header(513), 0, 513), 3, 0),
        ("count-4096", file(header(4096), 0, 4096), 3, 0),
        ("count-4097", file(header(4097), 0, 1), 3, 3),
        ("count-512-of-511", file(header(512), 0, 511), 1, 1),
        ("count-512-of-513", file(header(512), 0, 513), 1, 1),
        ("count-513-of-512", file(header(513), 0, 512), 3, 1),
        ("count-513-of-514", file(header(513), 0, 514), 3, 1),
        ("count-513-of-0", file(header(513), 0, 0), 3, 1),
        (
            "2-before-10",
            file(pulled(on(17, 4, header(513))), 1, 0),
            2,
            10,
        ),
        (
            "10-before-18",
            file(pulled(edged(header(513))), 1, 0),
            10,
            10,
        ),
        ("18-before-3", file(edged(long(header(513))), 1, 0), 18, 18),
        ("3-before-17", file(long(header(513)), 1, 513), 3, 17),
        ("3-before-16", file(header(513), 1 << 8, 513), 3, 16),
        ("17-before-16", file(long(header(512)), 1, 512), 17, 17),
        ("16-before-1", file(header(512), 1, 513), 16, 16),
        ("3-before-4", massless(513), 3, 4),
        ("4-after-3", massless(512), 4, 4),
        ("ten-bytes", vec![0xFF; HEADER_LENGTH - 1], 1, 1),
    ]
}

/// The cases of an operation on each of these files.
fn on_files(operation: Operation, given: impl Fn(Vec<u8>) -> Buffers) -> Vec<Case> {
    let stated = |number: u32| (number > 0).then_some((number, 0));
    let mut cases = Vec::new();
    for (name, file, number, bench) in told_files() {
        let name = format!("file-{name}");
        if number == bench {
            cases.push(page(&name, operation, given(file), stated(number)));
        } else {
            let stated = stated(bench);
            cases.extend(apart(&name, operation, given(file), number, stated));
        }
    }
    cases
}

fn files() -> Vec<Case> {
    on_files(Operation::ReadFile, bytes)
}

/// A store in which the bench keeps these files.
fn store(held: &[(&[u8], Vec<u8>)]) -> Vec<u8> {
    let mut store = vec![0; STORE_LENGTH];
    for (name, file) in held {
        keep(&mut store, name, file).expect("a bath of the bench");
    }
    store
}

/// A bath file.
fn file(nx: i128, ny: i128, count: u16) -> Vec<u8> {
    pack_file(settings(Size::new(nx, ny)), 12, &particles(count))
}

/// Keep: each file in an empty store, and what comes before its checks and after; stores with baths that
/// the page may not give.
fn stores() -> Vec<Case> {
    let bench = || store(&[(b"LARGE", file(48, 5, 4096)), (b"WIDE", file(17, 16, 0))]);
    let full = || {
        store(&[
            (b"A", file(5, 4, 513)),
            (b"B", file(5, 17, 0)),
            (b"C", file(5, 4, 1)),
            (b"D", file(16, 5, 2)),
        ])
    };
    let mut damaged = bench();
    damaged[1] = b'a';
    let given = |store: Vec<u8>, name: &[u8], file: Vec<u8>| Buffers::of_store(store, name, file);
    let keep = |name: &str, before: Buffers, number: u32| {
        let stated = (number > 0).then_some((number, 0));
        page(name, Operation::Keep, before, stated)
    };
    let mut cases = on_files(Operation::Keep, |file| given(store(&[]), b"BATH", file));
    let (small, many, wide) = (|| file(16, 5, 3), || file(5, 4, 513), || file(5, 17, 1));
    cases.extend([
        keep("beside-the-bench's", given(bench(), b"PAGE", small()), 0),
        keep("for-the-bench's", given(bench(), b"LARGE", small()), 0),
        keep("for-none-of-them", given(bench(), b"PAGE", many()), 3),
        keep(
            "for-the-bench's-too-many",
            given(bench(), b"LARGE", many()),
            3,
        ),
        keep(
            "for-the-bench's-too-wide",
            given(bench(), b"WIDE", wide()),
            2,
        ),
        keep("1-before-3", given(damaged.clone(), b"page", many()), 1),
        keep("1-before-2", given(damaged, b"page", wide()), 1),
        keep("22-before-3", given(full(), b"page", many()), 22),
        keep("22-before-2", given(full(), b"page", wide()), 22),
        keep("24", given(full(), b"PAGE", small()), 24),
    ]);
    for (name, file, number) in [("3-before-24", many(), 3), ("2-before-24", wide(), 2)] {
        let before = given(full(), b"PAGE", file);
        cases.extend(apart(name, Operation::Keep, before, number, Some((24, 0))));
    }
    cases
}
