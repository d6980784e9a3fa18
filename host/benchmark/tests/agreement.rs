//! Rust written for speed answers as the proved engine does, on the inputs of the comparison: the
//! same number, values and buffers. So does the engine where it is called in another way.

use benchmark::library::{load, Library, OPTIMISED, OPTIMISED_PAGE, PAGE, PROVED};
use benchmark::stack::painted::Stack;
use compare::calls::by_library;
use compare::inputs::{self, Call, Make};
use compare::{count, seed, stream};
use program::{root, Room};
use reference::generator::Generator;
use reference::Caller;
use vectors::{Buffers, Operation};

/// What the values hold before a call; no result has it.
const BEFORE: i64 = i64::MIN;

/// The answer, the values that the call hands out, and the buffers that it leaves.
fn call(library: &Library, operation: Operation, before: &Buffers) -> (u64, Vec<i64>, Buffers) {
    let mut after = before.clone();
    let answer = by_library(library, operation, &mut after, BEFORE);
    let (answer, values) = answer.expect("numbers that the library takes");
    (answer, values, after)
}

/// The libraries: the proved engine, and another that has to agree with it.
type Both<'a> = [&'a Library; 2];

/// Rust written for speed, as each caller calls it.
const BENCHES: Both = [&PROVED, &OPTIMISED];
const PAGES: Both = [&PAGE, &OPTIMISED_PAGE];

/// Both libraries on many inputs.
fn agree(both: Both, name: &str, make: impl Fn(&mut Generator) -> Call, count: u64) {
    for k in 0..count {
        let (operation, before) = make(&mut stream(name, k));
        let [proved, other] = both.map(|library| call(library, operation, &before));
        let told = format!("{name}, COMPARE_SEED {}, input {k}", seed());
        assert!(proved == other, "{told}: {operation:?}");
    }
}

/// A test for each operation that knows no caller, and two for each of the others.
macro_rules! agreement {
    ($($operation:ident)*; $($of_both:ident)*) => {
        $(
            #[test]
            fn $operation() {
                agree(BENCHES, stringify!($operation), inputs::$operation, count());
            }
        )*
        $(
            #[test]
            fn $of_both() {
                let make = |numbers: &mut Generator| inputs::$of_both(numbers, Caller::Bench);
                agree(BENCHES, stringify!($of_both), make, count());
            }
        )*
        mod page {
            use super::*;

            $(
                #[test]
                fn $of_both() {
                    let make = |numbers: &mut Generator| inputs::$of_both(numbers, Caller::Page);
                    agree(PAGES, concat!("page: ", stringify!($of_both)), make, count());
                }
            )*
        }
    };
}

agreement! {
    read_record write_record weights write_header return_to forget;
    check_set totals scatter adding_scatter update gather step run read_file keep
}

/// Every vector, for its caller.
#[test]
fn vectors() {
    for case in vectors::cases() {
        if case.operation == Operation::Program {
            continue;
        }
        let both = match case.caller {
            Caller::Bench => BENCHES,
            Caller::Page => PAGES,
        };
        let [proved, other] = both.map(|library| call(library, case.operation, &case.before));
        assert!(proved == other, "{}", case.name);
    }
}

/// The operations whose calls have arguments of every kind, and the most of them.
const SOME: [(&str, Make); 5] = [
    ("write_record", inputs::write_record),
    ("update", |numbers| inputs::update(numbers, Caller::Bench)),
    ("gather", |numbers| inputs::gather(numbers, Caller::Bench)),
    ("run", |numbers| inputs::run(numbers, Caller::Bench)),
    ("return_to", inputs::return_to),
];

/// The static library loaded once more answers as the one that is linked.
#[test]
fn loaded() {
    let (room, archive) = (
        Room::new("loaded"),
        root().join("target/staticlib/libgondwize.a"),
    );
    // SAFETY: it is a build of the library.
    let library = unsafe { load(&archive, &room.path(""), "library") }.expect("a library");
    for (name, make) in SOME {
        agree([&PROVED, &library], name, make, 500);
    }
    // SAFETY: there is none.
    assert!(unsafe { load(&room.path("none"), &room.path(""), "none") }.is_err());
}

/// So does the library on a stack that is looked at, for each caller.
#[test]
fn on_a_painted_stack() {
    let mut stack = Stack::new();
    for (caller, proved) in [(Caller::Bench, &PROVED), (Caller::Page, &PAGE)] {
        for (name, make) in SOME {
            let calls = |library: &_| agree([proved, library], name, make, 500);
            let ((), depth) = stack.depth(caller, calls);
            assert!(depth > 0);
        }
    }
}

/// Sets of every size about the parts and arrays of the engine.
#[test]
fn sizes_of_sets() {
    for count in [0, 1, 63, 64, 65, 127, 128, 129, 511, 512, 513, 4095, 4096] {
        let mut numbers = stream("sizes of sets", count as u64);
        let (at, bytes) = inputs::full_set(&mut numbers, Caller::Bench, count);
        let grid = reference::Grid::filled(at.nodes(), 3, 2, -1);
        let before = Buffers::new(bytes, grid);
        let given = reference::Settings::new(at, 1, -1);
        let hindered = given.with_edge(reference::Edge::slip(1)).with_drag(30);
        let operations = [
            Operation::CheckSet(at),
            Operation::Scatter(at),
            Operation::AddingScatter(at),
            Operation::Gather(at),
            Operation::Step(given),
            Operation::Run(given, 3),
            Operation::Step(hindered),
            Operation::Run(hindered, 3),
        ];
        for operation in operations {
            for both in [BENCHES, PAGES] {
                let [proved, other] = both.map(|library| call(library, operation, &before));
                assert!(proved == other, "{count} records: {operation:?}");
            }
        }
    }
}
