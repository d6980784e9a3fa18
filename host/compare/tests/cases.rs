//! The vectors, the sample files, every offset, numbers wider than their fields, edges by their
//! numbers, and the largest sets.

use std::path::Path;

use compare::calls::{agreed, by_engine};
use compare::inputs::{self, Ends, I64, U64, USIZE};
use compare::{count, stream};
use reference::limits::{HEADER_LENGTH, RECORD_LENGTH};
use reference::report::report;
use reference::{Caller, Edge, Grid, Header, Particle, Settings, Size};
use vectors::{cases, Answer, Buffers, Operation};

/// Every vector but the program's, for its caller.
#[test]
fn vectors() {
    let (mut compared, mut of_the_page) = (0, 0);
    for case in cases() {
        if case.operation == Operation::Program {
            continue;
        }
        let mut after = case.before.clone();
        let answer = by_engine(case.caller, case.operation, &mut after);
        let answer = answer.expect("numbers that the engine takes");
        assert_eq!(answer, case.answer, "{}", case.name);
        assert!(after == case.after, "{}: buffers differ", case.name);
        compared += 1;
        of_the_page += usize::from(case.caller == Caller::Page);
    }
    assert!(compared > 2_000, "only {compared} vectors");
    assert!(of_the_page > 100, "only {of_the_page} of the page");
}

#[test]
fn offsets() {
    let ends = [i64::MIN, i64::MIN + 1, i64::MAX - 1, i64::MAX];
    for q in (-1_000..=1_000).chain(ends) {
        let buffers = Buffers::of_bytes(Vec::new());
        let weights = Operation::Weights(q.into());
        agreed("offset", Caller::Bench, weights, &buffers).expect("a call");
    }
}

/// A field: the ends of its type, an accepted number, and how it is set.
type Field<T> = (Ends, i128, fn(&mut T, i128));

/// Calls both for a caller and the field's number with each higher bit of its type added or taken away.
fn wide<T: Copy>(
    caller: Caller,
    (ends, accepted, set): Field<T>,
    given: T,
    before: &Buffers,
    operation: impl Fn(T) -> Operation,
) {
    let call = |number: i128| {
        let mut given = given;
        set(&mut given, number);
        let (answer, _) = agreed("wide", caller, operation(given), before).expect("a call");
        answer.refusal()
    };
    assert_eq!(call(accepted), None);
    for bit in 6..64 {
        for number in [accepted + (1 << bit), accepted - (1 << bit)] {
            if (ends.0..=ends.1).contains(&number) {
                assert!(call(number).is_some() || bit < 14, "{number}");
            }
        }
    }
}

/// A buffer of so many bytes to write to.
fn bytes(length: usize) -> Buffers {
    Buffers::of_bytes(vec![0xA5; length])
}

#[test]
fn wide_numbers_of_a_record() {
    let fields: [Field<Particle>; 9] = [
        (U64, 5, |p, n| p.mass = n),
        (U64, 5, |p, n| p.x = n),
        (U64, 5, |p, n| p.y = n),
        (I64, 5, |p, n| p.vx = n),
        (I64, 5, |p, n| p.vy = n),
        (I64, 5, |p, n| p.bxx = n),
        (I64, 5, |p, n| p.bxy = n),
        (I64, 5, |p, n| p.byx = n),
        (I64, 5, |p, n| p.byy = n),
    ];
    for field in fields {
        let particle = Particle::at_rest(7, 2, 64, 64);
        wide(
            Caller::Bench,
            field,
            particle,
            &bytes(RECORD_LENGTH),
            Operation::WriteRecord,
        );
    }
}

/// Every number of marks, written and read.
#[test]
fn marks() {
    for marks in 0..=u8::MAX {
        let particle = Particle::at_rest(258, 5, 77, 1033)
            .moving(-6, 7)
            .with_b([-800, 901, 1002, -1103])
            .with_marks(marks);
        let write = Operation::WriteRecord(particle);
        let called =
            |operation, before: &Buffers| agreed("marks", Caller::Bench, operation, before);
        let (_, written) = called(write, &bytes(RECORD_LENGTH)).expect("a call");
        let (read, _) = called(Operation::ReadRecord, &written).expect("a call");
        assert_eq!(read, Answer::Particle(particle));
    }
}

/// Sticky edges three nodes wide, and drag, on 5 by 4 nodes.
fn forced() -> Settings {
    Settings::new(Size::new(5, 4), 6, -7)
        .with_edge(Edge::sticky(3))
        .with_drag(9)
}

#[test]
fn wide_numbers_of_a_header() {
    let fields: [Field<Header>; 9] = [
        (USIZE, 5, |h, n| h.settings.size.nx = n),
        (USIZE, 5, |h, n| h.settings.size.ny = n),
        (I64, 5, |h, n| h.settings.gx = n),
        (I64, 5, |h, n| h.settings.gy = n),
        (USIZE, 5, |h, n| h.count = n),
        (USIZE, 5, |h, n| h.steps = n),
        (USIZE, 2, |h, n| h.settings.edge.kind = n),
        (USIZE, 2, |h, n| h.settings.edge.width = n),
        (USIZE, 5, |h, n| h.settings.drag = n),
    ];
    for field in fields {
        let header = Header {
            settings: forced(),
            count: 0,
            steps: 0,
        };
        let buffer = bytes(HEADER_LENGTH);
        wide(
            Caller::Bench,
            field,
            header,
            &buffer,
            Operation::WriteHeader,
        );
    }
}

#[test]
fn wide_numbers_of_settings() {
    let fields: [Field<Settings>; 7] = [
        (USIZE, 5, |s, n| s.size.nx = n),
        (USIZE, 4, |s, n| s.size.ny = n),
        (I64, 5, |s, n| s.gx = n),
        (I64, 5, |s, n| s.gy = n),
        (USIZE, 2, |s, n| s.edge.kind = n),
        (USIZE, 2, |s, n| s.edge.width = n),
        (USIZE, 5, |s, n| s.drag = n),
    ];
    let before = Buffers::new(
        Particle::at_rest(7, 2, 90, 70).pack().to_vec(),
        Grid::filled(20, 5, 300, -200),
    );
    for caller in Caller::ALL {
        for field in fields {
            let wide = |operation: fn(Settings) -> Operation| {
                wide(caller, field, forced(), &before, operation);
            };
            wide(Operation::Update);
            wide(Operation::Step);
            wide(|given| Operation::Run(given, 2));
        }
    }
}

/// An open edge with a width, of any bit, is refused.
#[test]
fn wide_open_edges() {
    for width in (0..64).map(|bit| 1 << bit) {
        let settings = forced().with_edge(Edge::new(0, width));
        let before = Buffers::new(Vec::new(), Grid::zero(20));
        for operation in [
            Operation::Update(settings),
            Operation::Step(settings),
            Operation::Run(settings, 0),
        ] {
            for caller in Caller::ALL {
                let called = agreed("a wide open edge", caller, operation, &before);
                let (answer, _) = called.expect("a call");
                assert_eq!(answer.refusal().map(|refusal| refusal.number), Some(18));
            }
        }
    }
}

/// An edge by its numbers is the one by its name.
#[test]
fn edges_by_their_numbers() {
    let named = [
        engine::Edge::Open,
        engine::Edge::Sticky(1),
        engine::Edge::Slip(2),
        engine::Edge::Sticky(4),
    ];
    for edge in named {
        let (kind, width) = (edge.kind(), edge.width());
        let numbered = engine::Edge::Numbered { kind, width };
        let [one, other] = [edge, numbered].map(|edge| {
            let mut grid = Grid::filled(42, 5, 300, -200);
            let settings = engine::Settings {
                size: engine::Size { nx: 7, ny: 6 },
                gx: 9,
                gy: -8,
                edge,
                drag: 50,
            };
            let Grid { mass, x, y } = &mut grid;
            let answer = engine::update(settings, &mut engine::GridBuffers { mass, x, y });
            (answer, grid)
        });
        assert_eq!(one, other, "{edge:?}");
    }
}

/// The program's text, by the engine.
fn text(file: &[u8]) -> String {
    let mut buffers = Buffers::of_bytes(file.to_vec());
    let call = |operation, buffers: &mut Buffers| by_engine(Caller::Bench, operation, buffers);
    let settings = match call(Operation::ReadFile, &mut buffers) {
        Some(Answer::Header(header)) => header,
        Some(Answer::Refused(refusal)) => {
            return format!("refused {} at {}\n", refusal.number, refusal.place)
        }
        other => panic!("{other:?}"),
    };
    let Header {
        settings, steps, ..
    } = settings;
    buffers.bytes.drain(..HEADER_LENGTH);
    buffers.grid = Grid::zero(settings.size.nodes());
    let Some(Answer::Ran(answer)) = call(Operation::Run(settings, steps), &mut buffers) else {
        panic!("a run");
    };
    let record = |bytes: &[u8]| Particle::unpack(bytes.try_into().expect("a record"));
    let records = buffers.bytes.chunks(RECORD_LENGTH);
    report(answer, &records.map(record).collect::<Vec<_>>())
}

#[test]
fn samples() {
    let folder = Path::new(env!("CARGO_MANIFEST_DIR")).join("../../examples");
    let mut found = 0;
    for entry in folder.read_dir().expect("the folder of samples") {
        let path = entry.expect("an entry").path();
        if path.extension().is_some_and(|ending| ending == "bath") {
            let expected = std::fs::read_to_string(path.with_extension("txt")).expect("its text");
            let file = std::fs::read(&path).expect("a sample");
            assert!(text(&file) == expected, "{}", path.display());
            found += 1;
        }
    }
    assert!(found >= 10, "only {found} samples");
}

/// Sets of about as many records as a caller takes, on its largest grid, and for the page of as many as the bench
/// takes and one more.
#[test]
fn full_sets() {
    let sets = [
        (Caller::Bench, 4_095),
        (Caller::Bench, 4_096),
        (Caller::Bench, 4_097),
        (Caller::Page, 511),
        (Caller::Page, 512),
        (Caller::Page, 513),
        (Caller::Page, 4_096),
        (Caller::Page, 4_097),
    ];
    for number in 0..count().div_ceil(4_000) {
        let mut numbers = stream("full", number);
        for (caller, records) in sets {
            let (size, bytes) = inputs::full_set(&mut numbers, caller, records);
            let grid = Grid::filled(size.nodes(), 5, 300, -200);
            let before = Buffers::new(bytes, grid);
            let settings = Settings::new(size, 1, -4096);
            for operation in [
                Operation::CheckSet(size),
                Operation::Totals(size),
                Operation::Scatter(size),
                Operation::AddingScatter(size),
                Operation::Gather(size),
                Operation::Step(settings),
                Operation::Step(settings.with_edge(Edge::slip(2)).with_drag(3)),
                Operation::Run(Settings::new(size, 0, 0), 3),
                Operation::Run(settings.with_edge(Edge::sticky(3)).with_drag(90), 3),
            ] {
                agreed("a full set", caller, operation, &before).expect("a call");
            }
        }
    }
}
