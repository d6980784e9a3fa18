//! The functions of both callers against the reference: every answer and every buffer, on inputs about
//! the page's limits, valid and damaged.

use std::collections::BTreeSet;

use reference::bath_file::pack_file;
use reference::generator::Generator;
use reference::limits::STORE_LENGTH;
use reference::particle_set::pack_records;
use reference::{
    adding_scatter_for, check_set_for, gather_for, keep_for, read_file_for, run_for, scatter_for,
    step_for, totals_for, update_for,
};
use reference::{Grid, Particle, Refusal, Settings, Size, Sums};

const SUMS: Sums = Sums::Nearby;

/// A caller, here and there.
type Caller = (optimised::Caller, reference::Caller);

const CALLERS: [Caller; 2] = [
    (optimised::Caller::Bench, reference::Caller::Bench),
    (optimised::Caller::Page, reference::Caller::Page),
];

/// What the operations are given, and then what they leave.
#[derive(Clone, PartialEq)]
struct Given {
    settings: Settings,
    steps: i128,
    records: Vec<u8>,
    grid: Grid,
    file: Vec<u8>,
    store: Vec<u8>,
    name: &'static [u8],
}

/// The answer as one number, and the values that are handed out, 7 before.
type Answer = (u64, Vec<i64>);

fn code(refusal: Option<Refusal>) -> u64 {
    refusal.map_or(0, |r| u64::from(r.number) << 32 | r.place as u64)
}

/// The reference's answer, with so many values.
fn answer<T>(found: Result<T, Refusal>, count: usize, values: impl Fn(T) -> Vec<i128>) -> Answer {
    match found {
        Ok(found) => (0, values(found).into_iter().map(|v| v as i64).collect()),
        Err(refusal) => (code(Some(refusal)), vec![7; count]),
    }
}

fn done(found: Result<(), Refusal>) -> Answer {
    answer(found, 0, |()| Vec::new())
}

/// The reference's answers, operation by operation.
fn by_reference(caller: reference::Caller, operation: usize, given: &mut Given) -> Answer {
    let Given {
        settings,
        steps,
        records,
        grid,
        file,
        store,
        name,
    } = given;
    let (settings, size) = (*settings, settings.size);
    match operation {
        0 => answer(check_set_for(caller, size, records), 1, |n| vec![n as i128]),
        1 => answer(totals_for(caller, size, records), 6, |t| {
            t.values().to_vec()
        }),
        2 => done(scatter_for(
            caller,
            SUMS,
            size,
            records,
            &mut grid.buffers(),
        )),
        3 => {
            let grid = &mut grid.buffers();
            done(adding_scatter_for(caller, SUMS, size, records, grid))
        }
        4 => done(update_for(caller, settings, &mut grid.buffers())),
        5 => done(gather_for(caller, SUMS, size, records, &grid.x, &grid.y)),
        6 => done(step_for(
            caller,
            SUMS,
            settings,
            records,
            &mut grid.buffers(),
        )),
        7 => {
            let grid = &mut grid.buffers();
            let ran = run_for(caller, SUMS, settings, *steps, records, grid);
            (code(ran.refusal), vec![ran.completed as i64])
        }
        8 => answer(read_file_for(caller, file), 9, |header| {
            header.values().to_vec()
        }),
        _ => done(keep_for(caller, store, name, file)),
    }
}

/// The functions' answers.
fn by_functions(caller: optimised::Caller, operation: usize, given: &mut Given) -> Answer {
    let Given {
        settings,
        steps,
        records,
        grid: Grid { mass, x, y },
        file,
        store,
        name,
    } = given;
    let number = |n: i128| n as usize;
    let (nx, ny) = (number(settings.size.nx), number(settings.size.ny));
    let (gx, gy) = (settings.gx as i64, settings.gy as i64);
    let (kind, width) = (number(settings.edge.kind), number(settings.edge.width));
    let (drag, steps) = (number(settings.drag), number(*steps));
    match operation {
        0 => {
            let mut count = 7;
            let answer = optimised::check_set(caller, nx, ny, records, &mut count);
            (answer, vec![count as i64])
        }
        1 => {
            let mut values = [7; 6];
            let answer = optimised::totals(caller, nx, ny, records, &mut values);
            (answer, values.to_vec())
        }
        2 => (
            optimised::scatter(caller, nx, ny, records, mass, x, y),
            vec![],
        ),
        3 => (
            optimised::adding_scatter(caller, nx, ny, records, mass, x, y),
            vec![],
        ),
        4 => (
            optimised::update(caller, nx, ny, gx, gy, kind, width, drag, mass, x, y),
            vec![],
        ),
        5 => (optimised::gather(caller, nx, ny, records, x, y), vec![]),
        6 => (
            optimised::step(
                caller, nx, ny, gx, gy, kind, width, drag, records, mass, x, y,
            ),
            vec![],
        ),
        7 => {
            let mut completed = 7;
            let answer = optimised::run(
                caller,
                nx,
                ny,
                gx,
                gy,
                kind,
                width,
                drag,
                steps,
                records,
                mass,
                x,
                y,
                &mut completed,
            );
            (answer, vec![completed as i64])
        }
        8 => {
            let mut values = [7; 9];
            let answer = optimised::read_file(caller, file, &mut values);
            (answer, values.to_vec())
        }
        _ => (optimised::keep(caller, store, name, file), vec![]),
    }
}

/// A bath about the page's limits, and now and then beyond others.
fn random(numbers: &mut Generator, stores: &[Vec<u8>]) -> Given {
    let nodes = [3, 4, 5, 9, 15, 16, 16, 16, 16, 16, 17, 48];
    let size = Size::new(numbers.one_of(&nodes), numbers.one_of(&nodes));
    let on = Size::new(size.nx.max(4), size.ny.max(4));
    let count = numbers.one_of(&[0, 1, 2, 40, 511, 512, 512, 513, 600]) as usize;
    let mut particles = numbers.particles(on, count, 9, 300);
    for p in &mut particles {
        p.mass = p.mass.min(200);
    }
    let rare = |numbers: &mut Generator, number: i128, other: i128| {
        if numbers.once_in(15) {
            other
        } else {
            number
        }
    };
    let mut settings = Settings::new(size, numbers.between(-90, 90), numbers.between(-90, 90))
        .with_edge(numbers.edge())
        .with_drag(numbers.one_of(&[0, 9, 255]));
    settings.gx = rare(numbers, settings.gx, 4097);
    settings.edge.kind = rare(numbers, settings.edge.kind, 3);
    settings.drag = rare(numbers, settings.drag, 256);
    let steps = numbers.one_of(&[0, 1, 2]);
    let steps = rare(numbers, steps, 10_001);
    let mut bytes = [
        pack_records(&particles),
        pack_file(settings, steps, &particles),
    ];
    for bytes in &mut bytes {
        let more = rare(numbers, 0, 1);
        bytes.extend(vec![0; more as usize]);
        if !bytes.is_empty() && numbers.once_in(6) {
            let at = numbers.between(0, bytes.len() as i128 - 1) as usize;
            bytes[at] ^= 1 << numbers.between(0, 7);
        }
    }
    let [records, file] = bytes;
    let mut grid = Grid::filled(size.nodes(), 9, numbers.between(-900, 900) as i64, 77);
    match numbers.between(0, 30) {
        0 => grid.mass.push(1),
        1 => grid.x.clear(),
        2 => grid.y.push(2),
        3 if size.nodes() > 11 => grid.mass[11] = 1 << 43,
        4 if size.nodes() > 11 => grid.y[11] = 1 << 40,
        _ => {}
    }
    Given {
        settings,
        steps,
        records,
        grid,
        file,
        store: stores[numbers.between(0, stores.len() as i128 - 1) as usize].clone(),
        name: [&b"BATH"[..], b"A", b"bath"][numbers.between(0, 2) as usize],
    }
}

/// An empty store, one that is full, of baths of either caller, and one that is damaged.
fn stores() -> Vec<Vec<u8>> {
    let file = |nx, count: u16| {
        let at = |k| Particle::at_rest(k, 9, 70, 90);
        let particles: Vec<Particle> = (0..count).map(at).collect();
        pack_file(Settings::new(Size::new(nx, 4), 2, -1), 3, &particles)
    };
    let mut full = vec![0; STORE_LENGTH];
    for (name, nx, count) in [
        (b"A", 48, 4096),
        (b"B", 17, 0),
        (b"C", 5, 513),
        (b"D", 5, 2),
    ] {
        reference::keep(&mut full, name, &file(nx, count)).expect("a bath of the bench");
    }
    let mut damaged = full.clone();
    damaged[STORE_LENGTH - 1] = 1;
    vec![vec![0; STORE_LENGTH], full, damaged]
}

#[test]
fn both_callers_as_the_reference() {
    let mut numbers = Generator::new(9);
    let stores = stores();
    let mut seen = BTreeSet::new();
    for _ in 0..300 {
        let given = random(&mut numbers, &stores);
        for (here, there) in CALLERS {
            for operation in 0..10 {
                let (mut found, mut expected) = (given.clone(), given.clone());
                let answer = by_functions(here, operation, &mut found);
                let reference = by_reference(there, operation, &mut expected);
                assert_eq!(answer, reference, "operation {operation} for {there:?}");
                assert!(found == expected, "operation {operation} for {there:?}");
                seen.insert((there, operation, answer.0 >> 32));
            }
        }
    }
    for (_, caller) in CALLERS {
        for operation in 0..10 {
            // Update has no set.
            let three = caller == reference::Caller::Page && operation != 4;
            for number in [0, 2].into_iter().chain(three.then_some(3)) {
                let what = (caller, operation, number);
                assert!(seen.contains(&what), "{what:?}");
            }
        }
    }
}
