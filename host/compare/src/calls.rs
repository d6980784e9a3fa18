//! A call by the engine and by the reference.

use engine::library::{Library, PAGE, PROVED};
use engine::GridBuffers;
use reference::edge::{OPEN, SLIP, STICKY};
use reference::limits::RECORD_LENGTH;
use reference::{adding_scatter_for, gather_for, run_for, scatter_for, step_for, Caller};
use reference::{Edge, Header, Particle, Refusal, RunAnswer, Settings, Size, Sums, Totals};
use vectors::{Answer, Buffers, Operation};

/// A refusal in the reference's type.
fn refusal(refusal: engine::Refusal) -> Refusal {
    Refusal::at(refusal.limit.number(), refusal.place)
}

/// A size in the engine's type, none where it has no such numbers.
fn size(size: Size) -> Option<engine::Size> {
    Some(engine::Size {
        nx: size.nx.try_into().ok()?,
        ny: size.ny.try_into().ok()?,
    })
}

/// An edge in the engine's type: by its name where it has one, and by its numbers else.
fn to_edge(edge: Edge) -> Option<engine::Edge> {
    let (kind, width) = (edge.kind.try_into().ok()?, edge.width.try_into().ok()?);
    Some(match (edge.kind, width) {
        (OPEN, 0) => engine::Edge::Open,
        (STICKY, width) => engine::Edge::Sticky(width),
        (SLIP, width) => engine::Edge::Slip(width),
        _ => engine::Edge::Numbered { kind, width },
    })
}

/// A file's edge in the reference's type.
fn from_edge(edge: engine::Edge) -> Edge {
    match edge {
        engine::Edge::Open => Edge::OPEN,
        engine::Edge::Sticky(width) => Edge::sticky(width as i128),
        engine::Edge::Slip(width) => Edge::slip(width as i128),
        engine::Edge::Numbered { .. } => panic!("a file's edge without a name: {edge:?}"),
    }
}

/// Settings in the engine's type.
fn settings(settings: Settings) -> Option<engine::Settings> {
    Some(engine::Settings {
        size: size(settings.size)?,
        gx: settings.gx.try_into().ok()?,
        gy: settings.gy.try_into().ok()?,
        edge: to_edge(settings.edge)?,
        drag: settings.drag.try_into().ok()?,
    })
}

/// A particle in the engine's type.
fn to_engine(p: Particle) -> Option<engine::Particle> {
    Some(engine::Particle {
        identifier: p.identifier,
        mass: p.mass.try_into().ok()?,
        x: p.x.try_into().ok()?,
        y: p.y.try_into().ok()?,
        vx: p.vx.try_into().ok()?,
        vy: p.vy.try_into().ok()?,
        bxx: p.bxx.try_into().ok()?,
        bxy: p.bxy.try_into().ok()?,
        byx: p.byx.try_into().ok()?,
        byy: p.byy.try_into().ok()?,
        marks: p.marks,
    })
}

/// A particle in the reference's type.
fn from_engine(p: engine::Particle) -> Particle {
    Particle {
        identifier: p.identifier,
        mass: p.mass.into(),
        x: p.x.into(),
        y: p.y.into(),
        vx: p.vx.into(),
        vy: p.vy.into(),
        bxx: p.bxx.into(),
        bxy: p.bxy.into(),
        byx: p.byx.into(),
        byy: p.byy.into(),
        marks: p.marks,
    }
}

/// Totals in the reference's type.
fn from_totals(totals: engine::Totals) -> Totals {
    Totals {
        mass: totals.mass.into(),
        px: totals.px.into(),
        py: totals.py.into(),
        angular_momentum: totals.angular_momentum.into(),
        motion: totals.motion.into(),
        marks: totals.marks.into(),
    }
}

/// A header in the engine's type.
fn to_header(header: Header) -> Option<engine::Header> {
    let engine::Settings {
        size,
        gx,
        gy,
        edge,
        drag,
    } = settings(header.settings)?;
    Some(engine::Header {
        size,
        gx,
        gy,
        count: header.count.try_into().ok()?,
        steps: header.steps.try_into().ok()?,
        edge,
        drag,
    })
}

/// A header in the reference's type.
fn from_header(header: engine::Header) -> Header {
    let engine::Size { nx, ny } = header.size;
    let size = Size::new(nx as i128, ny as i128);
    Header {
        settings: Settings::new(size, header.gx.into(), header.gy.into())
            .with_edge(from_edge(header.edge))
            .with_drag(header.drag as i128),
        count: header.count as i128,
        steps: header.steps as i128,
    }
}

/// A run's answer in the reference's type.
fn from_run(answer: engine::RunAnswer) -> RunAnswer {
    RunAnswer {
        completed: answer.completed,
        refusal: answer.refusal.map(refusal),
    }
}

/// The proved library as a caller calls it.
pub fn library(caller: Caller) -> &'static Library {
    match caller {
        Caller::Bench => &PROVED,
        Caller::Page => &PAGE,
    }
}

/// The engine's function of this name for a caller, with its arguments.
macro_rules! called {
    ($caller:ident $name:ident($($argument:expr),*)) => {
        match $caller {
            Caller::Bench => engine::$name($($argument),*),
            Caller::Page => engine::page::$name($($argument),*),
        }
    };
}

/// The answer of the engine to a caller; the buffers are left as the operation leaves them. None where the
/// engine's types have no such numbers, and for the program.
pub fn by_engine(caller: Caller, operation: Operation, buffers: &mut Buffers) -> Option<Answer> {
    let (bytes, store, name) = (&mut buffers.bytes, &mut buffers.store, &buffers.name);
    let mut grid = GridBuffers {
        mass: &mut buffers.grid.mass,
        x: &mut buffers.grid.x,
        y: &mut buffers.grid.y,
    };
    let grid = &mut grid;
    let done = |()| Answer::Done;
    let answer = match operation {
        Operation::ReadRecord => {
            engine::read_record(bytes).map(|p| Answer::Particle(from_engine(p)))
        }
        Operation::WriteRecord(p) => engine::write_record(&to_engine(p)?, bytes).map(done),
        Operation::CheckSet(at) => called!(caller check_set(size(at)?, bytes)).map(Answer::Count),
        Operation::Totals(at) => called!(caller totals(size(at)?, bytes))
            .map(|totals| Answer::Totals(from_totals(totals))),
        Operation::Weights(q) => {
            engine::weights(q.try_into().ok()?).map(|row| Answer::Weights(row.map(i128::from)))
        }
        Operation::Scatter(at) => called!(caller scatter(size(at)?, bytes, grid)).map(done),
        Operation::AddingScatter(at) => {
            called!(caller adding_scatter(size(at)?, bytes, grid)).map(done)
        }
        Operation::Update(given) => called!(caller update(settings(given)?, grid)).map(done),
        Operation::Gather(at) => called!(caller gather(size(at)?, bytes, grid.x, grid.y)).map(done),
        Operation::Step(given) => called!(caller step(settings(given)?, bytes, grid)).map(done),
        Operation::Run(given, steps) => {
            let (given, steps) = (settings(given)?, steps.try_into().ok()?);
            let answer = called!(caller run(given, steps, bytes, grid));
            Ok(Answer::Ran(from_run(answer)))
        }
        Operation::ReadFile => {
            called!(caller read_file(bytes)).map(|header| Answer::Header(from_header(header)))
        }
        Operation::WriteHeader(header) => {
            engine::write_header(&to_header(header)?, bytes).map(done)
        }
        Operation::Keep => called!(caller keep(store, name, bytes)).map(done),
        Operation::Return => engine::return_to(store, name, bytes).map(Answer::Length),
        Operation::Forget => engine::forget(store, name).map(done),
        Operation::Program => return None,
    };
    Some(answer.unwrap_or_else(|refused| Answer::Refused(refusal(refused))))
}

/// The answer of a call and the values that it hands out, which all hold `before` at first.
fn handed<const N: usize>(before: i64, call: impl FnOnce(&mut [i64; N]) -> u64) -> (u64, Vec<i64>) {
    let mut values = [before; N];
    let answer = call(&mut values);
    (answer, values.to_vec())
}

/// The same for a call that hands out one value.
fn handed_one(before: i64, call: impl FnOnce(&mut u64) -> u64) -> (u64, Vec<i64>) {
    let mut value = before as u64;
    let answer = call(&mut value);
    (answer, vec![value as i64])
}

/// The number that a library answers and the values that the call hands out, which all hold `before`
/// at first; the buffers are left as the operation leaves them. None as for [`by_engine`].
pub fn by_library(
    library: &Library,
    operation: Operation,
    buffers: &mut Buffers,
    before: i64,
) -> Option<(u64, Vec<i64>)> {
    let (bytes, store, name) = (&mut buffers.bytes, &mut buffers.store, &buffers.name);
    let mut grid = GridBuffers {
        mass: &mut buffers.grid.mass,
        x: &mut buffers.grid.x,
        y: &mut buffers.grid.y,
    };
    let none = |answer| (answer, Vec::new());
    Some(match operation {
        Operation::ReadRecord => handed(before, |values| library.read_record(bytes, values)),
        Operation::WriteRecord(p) => none(library.write_record(&to_engine(p)?, bytes)),
        Operation::CheckSet(at) => {
            let size = size(at)?;
            handed_one(before, |count| library.check_set(size, bytes, count))
        }
        Operation::Totals(at) => {
            let size = size(at)?;
            handed(before, |values| library.totals(size, bytes, values))
        }
        Operation::Weights(q) => {
            let q = q.try_into().ok()?;
            handed(before, |values| library.weights(q, values))
        }
        Operation::Scatter(at) => none(library.scatter(size(at)?, bytes, &mut grid)),
        Operation::AddingScatter(at) => none(library.adding_scatter(size(at)?, bytes, &mut grid)),
        Operation::Update(given) => none(library.update(settings(given)?, &mut grid)),
        Operation::Gather(at) => none(library.gather(size(at)?, bytes, grid.x, grid.y)),
        Operation::Step(given) => none(library.step(settings(given)?, bytes, &mut grid)),
        Operation::Run(given, steps) => {
            let (given, steps) = (settings(given)?, steps.try_into().ok()?);
            let grid = &mut grid;
            handed_one(before, |done| library.run(given, steps, bytes, grid, done))
        }
        Operation::ReadFile => handed(before, |values| library.read_file(bytes, values)),
        Operation::WriteHeader(header) => none(library.write_header(&to_header(header)?, bytes)),
        Operation::Keep => none(library.keep(store, name, bytes)),
        Operation::Return => handed_one(before, |length| {
            library.return_to(store, name, bytes, length)
        }),
        Operation::Forget => none(library.forget(store, name)),
        Operation::Program => return None,
    })
}

/// Which sums the reference takes: all terms where they are few, and those near each particle else.
fn sums(buffers: &Buffers) -> Sums {
    let terms = buffers.bytes.len() / RECORD_LENGTH * buffers.grid.x.len();
    if terms <= 1_000 {
        Sums::Literal
    } else {
        Sums::Nearby
    }
}

/// The answer of the reference to a caller; the buffers are left as the operation leaves them.
pub fn by_reference(caller: Caller, operation: Operation, buffers: &mut Buffers) -> Answer {
    let sums = sums(buffers);
    let Buffers { bytes, grid, .. } = buffers;
    let answer = match operation {
        Operation::Scatter(size) => scatter_for(caller, sums, size, bytes, &mut grid.buffers()),
        Operation::AddingScatter(size) => {
            adding_scatter_for(caller, sums, size, bytes, &mut grid.buffers())
        }
        Operation::Gather(size) => gather_for(caller, sums, size, bytes, &grid.x, &grid.y),
        Operation::Step(settings) => step_for(caller, sums, settings, bytes, &mut grid.buffers()),
        Operation::Run(settings, steps) => {
            let answer = run_for(caller, sums, settings, steps, bytes, &mut grid.buffers());
            return Answer::Ran(answer);
        }
        other => return vectors::perform(caller, other, buffers),
    };
    answer.map_or_else(Answer::Refused, |()| Answer::Done)
}

/// Calls both for a caller; the answer and the buffers, if they agree. None where the engine has no such call.
///
/// # Panics
///
/// Where answers or buffers differ.
pub fn agreed(
    name: &str,
    caller: Caller,
    operation: Operation,
    before: &Buffers,
) -> Option<(Answer, Buffers)> {
    let mut found = before.clone();
    let answer = by_engine(caller, operation, &mut found)?;
    let mut expected = before.clone();
    let expected_answer = by_reference(caller, operation, &mut expected);
    assert_eq!(answer, expected_answer, "{name}: {caller:?} {operation:?}");
    assert!(
        found.store == expected.store,
        "{name}: stores differ after {caller:?} {operation:?} of {:?}",
        before.name
    );
    assert!(
        found == expected,
        "{name}: buffers differ after {caller:?} {operation:?}\nbefore: {before:?}\nengine: {found:?}\nreference: {expected:?}"
    );
    Some((answer, found))
}
