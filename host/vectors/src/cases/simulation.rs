//! Step, run, and lists of both.

use reference::limits::RECORD_LENGTH;
use reference::particle_set::pack_records;
use reference::{Caller, Edge, Grid, Particle, Settings, Size};

use super::{
    broken, case, case_for, copies, corners, differing_marks, edge_name, heaviest, lone, marked,
};
use super::{marked_records, printed, refused_forcings, refused_sets, used_grid, with_grid};
use super::{REFUSED_GRIDS, REFUSED_SIZES, SMALL};
use crate::{Buffers, Case, Operation};

pub fn cases() -> Vec<Case> {
    let step: fn(Settings) -> Operation = Operation::Step;
    let run: fn(Settings) -> Operation = |settings| Operation::Run(settings, 3);
    [
        entry_refusals("step", step),
        step_cases(),
        step_edges_and_drags(),
        entry_refusals("run", run),
        run_refusals(),
        examples(),
        run_edges_and_drags(),
        drifting_list(),
        spreading_list(),
        held_list(),
        marks(),
        marks_list(),
        callers_list(),
    ]
    .concat()
}

/// A grid on which a coordinate is 32 to 415.
const MIDDLE: Size = Size { nx: 8, ny: 8 };

fn entry_refusals(name: &str, operation: fn(Settings) -> Operation) -> Vec<Case> {
    let mut cases = Vec::new();
    for (size_name, size) in REFUSED_SIZES {
        let operation = operation(broken(size));
        let buffers = with_grid([0xA5; RECORD_LENGTH - 1], SMALL);
        cases.push(case(
            format!("{name}/{size_name}"),
            operation,
            buffers,
            Some((2, 0)),
        ));
    }
    let massless = marked(Particle { mass: 0, ..lone(0) }).pack();
    for (grid_name, change) in REFUSED_GRIDS {
        let operation = operation(broken(SMALL));
        let mut buffers = with_grid(massless, SMALL);
        change(&mut buffers.grid);
        cases.push(case(
            format!("{name}/{grid_name}"),
            operation,
            buffers,
            Some((1, 0)),
        ));
    }
    for (what, settings, stated) in refused_forcings() {
        let buffers = with_grid(massless, SMALL);
        let name = format!("{name}/{what}");
        cases.push(case(name, operation(settings), buffers, Some(stated)));
    }
    for (set_name, records, stated) in refused_sets() {
        let operation = operation(Settings::new(SMALL, 4096, -4096));
        let buffers = with_grid(records, SMALL);
        cases.push(case(
            format!("{name}/{set_name}"),
            operation,
            buffers,
            Some(stated),
        ));
    }
    cases
}

fn run_refusals() -> Vec<Case> {
    let massless = marked(Particle { mass: 0, ..lone(0) }).pack();
    let still = Settings::new(SMALL, 0, 0);
    let run = |name: &str, settings: Settings, steps: i128, number: u32| {
        let operation = Operation::Run(settings, steps);
        let buffers = with_grid(massless, SMALL);
        case(format!("run/{name}"), operation, buffers, Some((number, 0)))
    };
    let edge = still.with_edge(Edge::new(3, 0));
    let drag = still.with_edge(Edge::sticky(2)).with_drag(256);
    vec![
        run("steps-10001", still, 10_001, 17),
        run("steps-65535", still, 65_535, 17),
        run("10-before-17", broken(SMALL), 10_001, 10),
        run("18-before-17", edge, 10_001, 18),
        run("19-before-17", drag, 10_001, 19),
        run("17-before-the-set", drag.with_drag(255), 10_001, 17),
        run("0-steps-of-a-refused-edge", edge, 0, 18),
        run("0-steps-of-a-refused-drag", drag, 0, 19),
        run("0-steps-of-a-refused-set", still, 0, 4),
    ]
}

/// Two particles that spread so fast that B passes its limit.
fn bursting() -> [Particle; 2] {
    let b = [2047, 0, 0, 0];
    [
        Particle::at_rest(1, 9, 176, 192).moving(-63, 0).with_b(b),
        Particle::at_rest(2, 9, 208, 192).moving(63, 0).with_b(b),
    ]
}

fn step_cases() -> Vec<Case> {
    let step = |name: &str, size: Size, gx: i128, particles: &[Particle], stated| {
        let operation = Operation::Step(Settings::new(size, gx, 0));
        let buffers = with_grid(marked_records(particles), size);
        case(format!("step/{name}"), operation, buffers, stated)
    };
    let heavy = Particle { mass: 2, ..lone(2) };
    let drifting = Particle::at_rest(5, 1, 415, 200).moving(1, 0);
    let upward = Particle::at_rest(4, 1, 200, 200);
    let dropping = Particle::at_rest(5, 1, 100, 33).moving(0, -2);
    let fast = Particle::at_rest(5, 1, 200, 200).moving(63, 0);
    vec![
        step("empty", SMALL, 4096, &[], None),
        step("gx-127", SMALL, 127, &[lone(1)], None),
        step("gx-128", SMALL, 128, &[lone(1)], None),
        step("gx-129", SMALL, 129, &[lone(1)], None),
        step("gx-384", SMALL, 384, &[lone(1)], None),
        step("gx-640", SMALL, 640, &[lone(1)], None),
        step("gx--127", SMALL, -127, &[lone(1)], None),
        step("gx--128", SMALL, -128, &[lone(1)], None),
        step("gx--129", SMALL, -129, &[lone(1)], None),
        step("gx--384", SMALL, -384, &[lone(1)], None),
        step("gx--640", SMALL, -640, &[lone(1)], None),
        step("gx-4096", SMALL, 4096, &[lone(1)], None),
        step(
            "Bxx-1024",
            SMALL,
            0,
            &[lone(1).with_b([1024, 0, 0, 0])],
            None,
        ),
        step(
            "turn",
            SMALL,
            0,
            &[lone(1).with_b([0, -1024, 1024, 0])],
            None,
        ),
        step(
            "opposite-at-one-place",
            SMALL,
            0,
            &[lone(1).moving(1, 0), lone(2).moving(-1, 0)],
            None,
        ),
        step(
            "masses-1-and-2",
            SMALL,
            0,
            &[lone(1).moving(1, 0), heavy],
            None,
        ),
        step("three-near-each-other", MIDDLE, 9, &near_each_other(), None),
        step(
            "heaviest",
            MIDDLE,
            4096,
            &heaviest(Particle::at_rest(0, 1, 352, 40).moving(47, 5)),
            None,
        ),
        step("13", MIDDLE, 128, &[fast], Some((13, 0))),
        step(
            "13-at-record-1",
            MIDDLE,
            128,
            &[
                lone(1),
                Particle {
                    x: 300,
                    y: 300,
                    ..fast
                },
            ],
            Some((13, 1)),
        ),
        step("14", MIDDLE, 0, &bursting(), Some((14, 0))),
        step("15", MIDDLE, 0, &[drifting], Some((15, 0))),
        step(
            "15-at-record-1",
            MIDDLE,
            0,
            &[upward, dropping],
            Some((15, 1)),
        ),
        step(
            "15-of-two-at-one-place",
            MIDDLE,
            0,
            &copies(2, drifting),
            Some((15, 0)),
        ),
    ]
}

/// Three particles that share nodes.
fn near_each_other() -> [Particle; 3] {
    [
        Particle::at_rest(10, 5, 190, 210)
            .moving(4, -3)
            .with_b([100, -200, 300, -50]),
        Particle::at_rest(20, 70, 217, 195)
            .moving(-2, 6)
            .with_b([-40, 60, 90, 150]),
        Particle::at_rest(21, 311, 170, 260)
            .moving(1, 0)
            .with_b([7, 5, -3, -11]),
    ]
}

/// A step with every edge, alone and with drag: particles that share nodes, and particles near the
/// corners of the smallest grids.
fn step_edges_and_drags() -> Vec<Case> {
    let mut cases = Vec::new();
    for edge in Edge::ALL {
        for drag in [0, 1, 90, 255] {
            for (nx, ny, records) in [
                (8, 9, marked_records(&near_each_other())),
                (4, 4, corners(SMALL, 5)),
                (4, 5, corners(Size::new(4, 5), 5)),
            ] {
                let settings = Settings::new(Size::new(nx, ny), 70, -33);
                let settings = settings.with_edge(edge).with_drag(drag);
                let name = format!("step/{}-drag-{drag}-on-{nx}-by-{ny}", edge_name(edge));
                let buffers = with_grid(records, settings.size);
                cases.push(case(name, Operation::Step(settings), buffers, None));
            }
        }
    }
    cases
}

/// A particle that leaves with open edges, and what edges and drag make of it.
fn run_edges_and_drags() -> Vec<Case> {
    let gliding = Particle::at_rest(40, 3, 100, 230).moving(7, -2);
    let run = |name: &str, edge: Edge, drag: i128, particles: &[Particle], stated| {
        let settings = Settings::new(Size::new(9, 7), 0, 0);
        let settings = settings.with_edge(edge).with_drag(drag);
        let operation = Operation::Run(settings, 80);
        let buffers = with_grid(marked_records(particles), settings.size);
        case(format!("run/{name}"), operation, buffers, stated)
    };
    vec![
        run("80-steps-open", Edge::OPEN, 0, &[gliding], Some((15, 0))),
        run("80-steps-sticky-2", Edge::sticky(2), 0, &[gliding], None),
        run("80-steps-sticky-3", Edge::sticky(3), 0, &[gliding], None),
        run("80-steps-slip-2", Edge::slip(2), 0, &[gliding], None),
        run("80-steps-drag-100", Edge::OPEN, 100, &[gliding], None),
        run("80-steps-drag-255", Edge::OPEN, 255, &[gliding], None),
        run(
            "80-steps-of-three-slip-1-drag-4",
            Edge::slip(1),
            4,
            &near_each_other(),
            None,
        ),
    ]
}

fn examples() -> Vec<Case> {
    let run = |name: &str, settings: Settings, steps: i128, particles: &[Particle], stated| {
        let buffers = with_grid(marked_records(particles), settings.size);
        let operation = Operation::Run(settings, steps);
        case(format!("run/{name}"), operation, buffers, stated)
    };
    let still = Settings::new(MIDDLE, 0, 0);
    let falling = Settings::new(Size::new(48, 4), 129, 0);
    let gliding = Particle::at_rest(40, 3, 100, 100).moving(7, 0);
    let meeting = [
        Particle::at_rest(1, 1, 113, 192)
            .moving(4, 0)
            .with_b([-1848, 0, 0, 0]),
        Particle::at_rest(2, 9, 337, 192)
            .moving(-14, 0)
            .with_b([1986, 0, 0, 0]),
    ];
    vec![
        run("0-steps", still, 0, &[gliding], None),
        run("0-steps-of-what-would-stop", still, 0, &bursting(), None),
        run("1-step", still, 1, &[gliding], None),
        run("45-steps", still, 45, &[gliding], None),
        run(
            "stopped-at-its-46th-step-by-15",
            still,
            46,
            &[gliding],
            Some((15, 0)),
        ),
        run(
            "wanting-10000-stopped-by-15",
            still,
            10_000,
            &[gliding],
            Some((15, 0)),
        ),
        run(
            "stopped-at-its-1st-step-by-15",
            still,
            9,
            &[Particle { x: 409, ..gliding }],
            Some((15, 0)),
        ),
        run(
            "stopped-at-its-64th-step-by-13",
            falling,
            100,
            &[lone(1)],
            Some((13, 0)),
        ),
        run(
            "stopped-at-its-1st-step-by-14",
            still,
            9,
            &bursting(),
            Some((14, 0)),
        ),
        run(
            "stopped-at-its-6th-step-by-14",
            still,
            100,
            &meeting,
            Some((14, 0)),
        ),
        run(
            "10000-steps-of-nothing",
            Settings::new(SMALL, 4096, -4096),
            10_000,
            &[],
            None,
        ),
        run(
            "10000-steps-of-a-turn",
            Settings::new(SMALL, 0, 0),
            10_000,
            &[lone(1).with_b([0, -9, 9, 0])],
            None,
        ),
        run(
            "20-steps-of-three",
            Settings::new(MIDDLE, 3, -2),
            20,
            &near_each_other(),
            None,
        ),
    ]
}

/// A call of a list: the operation, its grid and its refusal.
type ListCall = (Operation, Grid, Option<(u32, usize)>);

/// The calls of a list, each with the records that the one before left.
fn list(name: &str, start: &[Particle], calls: &[ListCall]) -> Vec<Case> {
    list_of(name, marked_records(start), calls)
}

/// The same from these records on.
fn list_of(name: &str, bytes: Vec<u8>, calls: &[ListCall]) -> Vec<Case> {
    let calls = calls.iter().map(|call| (Caller::Bench, call.clone()));
    list_for(name, bytes, calls)
}

/// The same by these callers.
fn list_for(
    name: &str,
    mut bytes: Vec<u8>,
    calls: impl IntoIterator<Item = (Caller, ListCall)>,
) -> Vec<Case> {
    let mut cases = Vec::new();
    for (number, (caller, (operation, grid, stated))) in calls.into_iter().enumerate() {
        let buffers = Buffers::new(bytes, grid);
        let name = format!("list/{name}/{number}");
        let case = case_for(caller, name, operation, buffers, stated);
        bytes = case.after.bytes.clone();
        cases.push(case);
    }
    cases
}

/// One particle, every kind of call, grids of other sizes in between.
fn drifting_list() -> Vec<Case> {
    let start = [Particle::at_rest(40, 3, 100, 100).moving(7, 1)];
    let settings = |nx, ny, gx| Settings::new(Size::new(nx, ny), gx, 0);
    let step = |s: Settings, stated| (Operation::Step(s), used_grid(s.size), stated);
    let run = |s: Settings, steps, stated| (Operation::Run(s, steps), used_grid(s.size), stated);
    let mut short = used_grid(MIDDLE);
    short.y.truncate(63);
    let calls = [
        step(settings(8, 8, 0), None),
        run(settings(8, 8, 0), 5, None),
        run(settings(8, 8, 0), 0, None),
        step(settings(8, 8, 5000), Some((10, 0))),
        (Operation::Step(settings(8, 8, 0)), short, Some((1, 0))),
        step(settings(49, 8, 0), Some((2, 0))),
        run(settings(8, 8, 0), 10_001, Some((17, 0))),
        run(settings(4, 8, 0), 1, None),
        run(settings(4, 8, 0), 4, Some((15, 0))),
        step(settings(4, 8, 0), Some((15, 0))),
        run(settings(12, 6, 0), 10, None),
        step(settings(4, 8, 0), Some((7, 0))),
        run(settings(4, 8, 0), 0, Some((7, 0))),
        run(settings(12, 6, -300), 6, None),
        step(settings(12, 6, 4096), None),
        run(settings(12, 6, 2048), 100, Some((13, 0))),
        run(settings(12, 6, -2048), 9, None),
        run(settings(12, 6, 0), 10_000, Some((15, 0))),
        step(settings(12, 6, 0), Some((15, 0))),
    ];
    list("drifting", &start, &calls)
}

/// Three particles that share nodes, runs and steps in turn until one leaves.
fn spreading_list() -> Vec<Case> {
    let settings = |nx, ny, gx, gy| Settings::new(Size::new(nx, ny), gx, gy);
    let step = |s: Settings, stated| (Operation::Step(s), used_grid(s.size), stated);
    let run = |s: Settings, steps, stated| (Operation::Run(s, steps), used_grid(s.size), stated);
    let calls = [
        run(settings(8, 8, 0, 0), 3, None),
        step(settings(8, 8, 40, -40), None),
        step(settings(8, 9, -40, 40), None),
        run(settings(3, 9, 0, 0), 7, Some((2, 0))),
        run(settings(9, 8, 12, 0), 7, None),
        run(settings(9, 8, 0, 4097), 0, Some((10, 0))),
        run(settings(9, 8, 150, 150), 10_000, Some((15, 2))),
        run(settings(48, 48, 0, 0), 25, None),
    ];
    list("spreading", &near_each_other(), &calls)
}

/// Two particles between edges of every kind, refused ones too, until an open edge lets one leave.
fn held_list() -> Vec<Case> {
    let start = [
        Particle::at_rest(7, 90, 120, 200)
            .moving(-9, 4)
            .with_b([12, -30, 40, 5]),
        Particle::at_rest(9, 8, 260, 150).moving(11, 3),
    ];
    let settings = Settings::new(Size::new(7, 6), 5, -60);
    let step = |s: Settings, stated| (Operation::Step(s), used_grid(s.size), stated);
    let run = |s: Settings, steps, stated| (Operation::Run(s, steps), used_grid(s.size), stated);
    let with = |edge, drag| settings.with_edge(edge).with_drag(drag);
    let falling = Settings::new(settings.size, 5, -300);
    let calls = [
        run(with(Edge::sticky(2), 0), 12, None),
        step(with(Edge::slip(1), 8), None),
        step(with(Edge::new(3, 1), 8), Some((18, 0))),
        run(with(Edge::new(0, 1), 256), 10_001, Some((18, 0))),
        run(with(Edge::slip(3), 256), 10_001, Some((19, 0))),
        run(with(Edge::slip(3), 255), 10_001, Some((17, 0))),
        run(with(Edge::slip(3), 20), 40, None),
        run(with(Edge::sticky(1), 1), 25, None),
        step(with(Edge::OPEN, 255), None),
        run(falling, 10_000, Some((15, 1))),
        run(falling.with_edge(Edge::sticky(3)), 3, None),
    ];
    list("held", &start, &calls)
}

/// Two particles with the marks that they are given, out of each other's reach: one glides, one rests,
/// also under a gravity of some 256ths, which is rounded away.
fn apart() -> [Particle; 2] {
    [
        Particle::at_rest(40, 3, 100, 100)
            .moving(7, 0)
            .with_marks(255),
        Particle::at_rest(500, 9, 300, 400).with_marks(12),
    ]
}

/// The grid of the calls on marks; x is 32 to 415 on it.
const UPRIGHT: Size = Size { nx: 8, ny: 9 };

/// Steps and runs of records with the marks that they are given: completed, stopped and refused.
fn marks() -> Vec<Case> {
    let call = |name: &str, operation: Operation, size: Size, particles: &[Particle], stated| {
        let buffers = with_grid(pack_records(particles), size);
        case(name, operation, buffers, stated)
    };
    let settings = |gx, gy| Settings::new(UPRIGHT, gx, gy);
    let step = |name: &str, settings, stated| {
        let name = format!("step/marks{name}");
        let operation = Operation::Step(settings);
        call(&name, operation, UPRIGHT, &differing_marks(), stated)
    };
    let run = |name: &str, settings: Settings, steps, particles: &[Particle], stated| {
        let name = format!("run/marks{name}");
        let operation = Operation::Run(settings, steps);
        call(&name, operation, settings.size, particles, stated)
    };
    let held = settings(9, -30).with_edge(Edge::sticky(2)).with_drag(7);
    let pulled = Settings::new(Size::new(48, 9), 129, 0);
    vec![
        call(
            "step/printed",
            Operation::Step(Settings::new(SMALL, 0, 0)),
            SMALL,
            &[printed()],
            None,
        ),
        step("", settings(9, -30), None),
        step("-held", held, None),
        step("-10", settings(9, -4097), Some((10, 0))),
        step("-18", held.with_edge(Edge::sticky(4)), Some((18, 0))),
        run("", settings(9, -30), 6, &differing_marks(), None),
        run("-held", held, 300, &differing_marks(), None),
        run("-0-steps", settings(9, -30), 0, &differing_marks(), None),
        run("-17", held, 10_001, &differing_marks(), Some((17, 0))),
        run("-stopped-by-13", pulled, 100, &apart(), Some((13, 0))),
        run(
            "-stopped-by-15",
            settings(0, 3),
            100,
            &apart(),
            Some((15, 0)),
        ),
    ]
}

/// Records with the marks that they are given, through calls of every kind.
fn marks_list() -> Vec<Case> {
    let settings = Settings::new(UPRIGHT, 0, 3);
    let step = |s: Settings, stated| (Operation::Step(s), used_grid(s.size), stated);
    let run = |s: Settings, steps, stated| (Operation::Run(s, steps), used_grid(s.size), stated);
    let pulled = Settings::new(UPRIGHT, 4097, 3);
    let calls = [
        step(settings, None),
        run(settings, 12, None),
        run(settings.with_drag(256), 12, Some((19, 0))),
        step(pulled, Some((10, 0))),
        run(settings, 10_000, Some((15, 0))),
        step(settings, Some((15, 0))),
        run(settings, 0, None),
        run(settings.with_edge(Edge::sticky(3)), 5, None),
    ];
    list_of("marks", pack_records(&apart()), &calls)
}

/// Both callers in turn, on grids that both may give and on larger ones.
fn callers_list() -> Vec<Case> {
    let settings = |nx, ny| Settings::new(Size::new(nx, ny), 150, 190);
    let step = |s: Settings, stated| (Operation::Step(s), used_grid(s.size), stated);
    let run = |s: Settings, steps, stated| (Operation::Run(s, steps), used_grid(s.size), stated);
    let held = settings(9, 16).with_edge(Edge::sticky(2)).with_drag(40);
    let calls = [
        (Caller::Page, run(settings(16, 15), 4, None)),
        (Caller::Bench, step(settings(16, 15), None)),
        (Caller::Page, step(settings(17, 15), Some((2, 0)))),
        (Caller::Bench, step(settings(17, 15), None)),
        (Caller::Page, run(held, 3, None)),
        (Caller::Page, run(held, 10_001, Some((17, 0)))),
        (Caller::Bench, run(held.with_drag(256), 3, Some((19, 0)))),
        (Caller::Page, step(held.with_edge(Edge::slip(3)), None)),
        (Caller::Bench, run(settings(48, 47), 40, None)),
        (Caller::Page, step(settings(16, 9), Some((7, 0)))),
        (Caller::Page, run(settings(48, 47), 0, Some((2, 0)))),
        (Caller::Bench, run(settings(47, 48), 3, None)),
    ];
    list_for("callers", marked_records(&near_each_other()), calls)
}
