//! The cases are what they say, and cover every refusal.

use std::collections::{BTreeMap, BTreeSet};

use reference::bath_file::LAYOUT;
use reference::bits::unpack;
use reference::limits::{HEADER_LENGTH, RECORD_LENGTH};
use reference::{Caller, Size};
use vectors::{cases, perform, Answer, Case, Operation};

/// The refusals that documents 01 and 02 list for each operation, and for the lesson page.
const LISTED: [(&str, &[u32]); 26] = [
    ("read-record", &[1, 4, 5, 6]),
    ("write-record", &[1, 4, 5, 6, 7]),
    ("check-set", &[1, 2, 4, 5, 6, 7, 8, 9]),
    ("totals", &[1, 2, 4, 5, 6, 7, 8, 9]),
    ("weights", &[7]),
    ("scatter", &[1, 2, 4, 5, 6, 7, 8, 9]),
    ("adding-scatter", &[1, 2, 4, 5, 6, 7, 8, 9, 20, 21]),
    ("update", &[1, 2, 10, 11, 12, 18, 19]),
    ("gather", &[1, 2, 4, 5, 6, 7, 8, 9, 12, 13, 14, 15]),
    ("step", &[1, 2, 4, 5, 6, 7, 8, 9, 10, 13, 14, 15, 18, 19]),
    ("run", &[1, 2, 4, 5, 6, 7, 8, 9, 10, 13, 14, 15, 17, 18, 19]),
    ("read-file", &[1, 2, 3, 4, 5, 6, 7, 8, 9, 10, 16, 17, 18]),
    ("write-header", &[1, 2, 3, 10, 17, 18, 19]),
    ("keep", &[1, 2, 3, 4, 5, 6, 7, 8, 9, 10, 16, 17, 18, 22, 24]),
    ("return", &[1, 22, 23]),
    ("forget", &[1, 22, 23]),
    ("page-check-set", &[1, 2, 3, 4, 5, 6, 7, 8, 9]),
    ("page-totals", &[1, 2, 3, 4, 5, 6, 7, 8, 9]),
    ("page-scatter", &[1, 2, 3, 4, 5, 6, 7, 8, 9]),
    ("page-adding-scatter", &[1, 2, 3, 4, 5, 6, 7, 8, 9, 20, 21]),
    ("page-update", &[1, 2, 10, 11, 12, 18, 19]),
    ("page-gather", &[1, 2, 3, 4, 5, 6, 7, 8, 9, 12, 13, 14, 15]),
    (
        "page-step",
        &[1, 2, 3, 4, 5, 6, 7, 8, 9, 10, 13, 14, 15, 18, 19],
    ),
    (
        "page-run",
        &[1, 2, 3, 4, 5, 6, 7, 8, 9, 10, 13, 14, 15, 17, 18, 19],
    ),
    (
        "page-read-file",
        &[1, 2, 3, 4, 5, 6, 7, 8, 9, 10, 16, 17, 18],
    ),
    (
        "page-keep",
        &[1, 2, 3, 4, 5, 6, 7, 8, 9, 10, 16, 17, 18, 22, 24],
    ),
];

fn group(case: &Case) -> &str {
    case.name.split('/').next().expect("a name")
}

#[test]
fn refusals_are_those_stated() {
    for case in cases() {
        assert_eq!(case.answer.refusal(), case.stated, "{}", case.name);
    }
}

#[test]
fn names_differ() {
    let cases = cases();
    let names: BTreeSet<&str> = cases.iter().map(|case| case.name.as_str()).collect();
    assert_eq!(names.len(), cases.len());
}

#[test]
fn one_line_each() {
    for case in cases() {
        let line = case.to_string();
        assert!(line.is_ascii() && !line.contains('\n'), "{}", case.name);
        assert_eq!(line.matches(" | ").count(), 4, "{}", case.name);
    }
}

#[test]
fn every_listed_refusal_and_no_other() {
    let mut seen: BTreeMap<String, BTreeSet<u32>> = BTreeMap::new();
    for case in cases() {
        let numbers = seen.entry(group(&case).to_string()).or_default();
        numbers.extend(case.answer.refusal().map(|refusal| refusal.number));
    }
    for (operation, numbers) in LISTED {
        let seen: Vec<u32> = seen[operation].iter().copied().collect();
        assert_eq!(seen, numbers, "{operation}");
    }
}

#[test]
fn every_operation_accepts_something() {
    let cases = cases();
    for (operation, _) in LISTED {
        let accepted = |case: &Case| group(case) == operation && case.answer.refusal().is_none();
        assert!(cases.iter().any(accepted), "{operation}");
    }
}

/// The bytes of marks in records.
fn marks(records: &[u8]) -> Vec<u8> {
    let last = |record: &[u8]| record[RECORD_LENGTH - 1];
    records.chunks_exact(RECORD_LENGTH).map(last).collect()
}

/// Gathers, steps and runs leave marks, whatever they answer; in each of these there are records with
/// different ones that are moved, and such that are not.
#[test]
fn marks_are_left() {
    let mut seen = BTreeSet::new();
    for case in cases() {
        let (Operation::Gather(_) | Operation::Step(_) | Operation::Run(..)) = case.operation
        else {
            continue;
        };
        let (before, after) = (marks(&case.before.bytes), marks(&case.after.bytes));
        assert_eq!(after, before, "{}", case.name);
        if before.windows(2).any(|pair| pair[0] != pair[1]) {
            let moved = case.after.bytes != case.before.bytes;
            let refused = case.answer.refusal().is_some();
            seen.insert((group(&case).to_string(), moved, refused));
        }
    }
    for operation in ["gather", "step", "run", "list"] {
        for (moved, refused) in [(true, false), (false, true)] {
            assert!(seen.contains(&(operation.to_string(), moved, refused)));
        }
    }
    // A run that is stopped after some steps.
    assert!(seen.contains(&("run".to_string(), true, true)));
}

/// Only a step that was tried may leave its grid with a refusal, and a run its completed steps.
#[test]
fn refused_calls_change_nothing() {
    for case in cases() {
        let Some(refusal) = case.answer.refusal() else {
            continue;
        };
        let tried = (13..=15).contains(&refusal.number);
        match case.operation {
            Operation::Step(_) if tried => assert_eq!(case.after.bytes, case.before.bytes),
            Operation::Run(..) if tried => {}
            _ => assert!(case.after == case.before, "{}", case.name),
        }
    }
}

#[test]
fn calls_of_a_list_follow_each_other() {
    let cases = cases();
    for pair in cases.windows(2) {
        let list = |case: &Case| case.name.rsplit_once('/').map(|(list, _)| list.to_string());
        if group(&pair[0]) == "list" && list(&pair[0]) == list(&pair[1]) {
            assert!(pair[0].after.store == pair[1].before.store);
            if pair[0].after.store.is_empty() {
                assert_eq!(pair[0].after.bytes, pair[1].before.bytes);
            }
        }
    }
}

#[test]
fn names_tell_the_caller() {
    for case in cases().iter().filter(|case| group(case) != "list") {
        let page = case.name.starts_with("page-");
        assert_eq!(page, case.caller == Caller::Page, "{}", case.name);
    }
}

/// Beside each case of the bench that says so stands the same call of the page, with another answer.
#[test]
fn the_same_calls_of_page_and_bench() {
    let cases = cases();
    let named: BTreeMap<&str, &Case> = cases.iter().map(|case| (&case.name[..], case)).collect();
    let mut operations = BTreeSet::new();
    for bench in &cases {
        let Some((operation, name)) = bench.name.split_once("/bench-") else {
            continue;
        };
        let page = named[&format!("page-{operation}/{name}")[..]];
        assert!((bench.operation, &bench.before) == (page.operation, &page.before));
        let refusal = page.answer.refusal().expect("a refusal");
        assert!([2, 3].contains(&refusal.number) && refusal.place == 0);
        assert_ne!(Some(refusal), bench.answer.refusal());
        operations.insert((operation, refusal.number));
    }
    // Update has no set.
    assert_eq!(operations.len(), 19);
}

/// Nx, Ny and the number of records in what a call with a caller is given.
fn told(case: &Case) -> Option<[i128; 3]> {
    let bytes = &case.before.bytes;
    let Size { nx, ny } = match case.operation {
        Operation::CheckSet(size)
        | Operation::Totals(size)
        | Operation::Scatter(size)
        | Operation::AddingScatter(size)
        | Operation::Gather(size) => size,
        Operation::Update(settings) | Operation::Step(settings) | Operation::Run(settings, _) => {
            settings.size
        }
        Operation::ReadFile | Operation::Keep => {
            let [nx, ny, _, _, count, ..] = unpack(&LAYOUT, bytes.get(..HEADER_LENGTH)?);
            return Some([nx, ny, count]);
        }
        _ => return None,
    };
    Some([nx, ny, (bytes.len() / RECORD_LENGTH) as i128])
}

/// The page's outcome of a bench's case within the page's limits is the same.
#[test]
fn within_the_limits_of_the_page() {
    let mut seen: BTreeMap<String, usize> = BTreeMap::new();
    for case in cases() {
        let within = |[nx, ny, count]: [i128; 3]| nx <= 16 && ny <= 16 && count <= 512;
        if case.caller == Caller::Page || !told(&case).is_some_and(within) {
            continue;
        }
        let mut after = case.before.clone();
        let answer = perform(Caller::Page, case.operation, &mut after);
        assert!(
            (&answer, &after) == (&case.answer, &case.after),
            "{}",
            case.name
        );
        *seen.entry(group(&case).to_string()).or_default() += 1;
    }
    assert_eq!(seen.len(), 11);
    assert!(seen.values().all(|&count| count > 20), "{seen:?}");
}

#[test]
fn stopped_runs() {
    let cases = cases();
    let completed = |name: &str| {
        let case = cases.iter().find(|case| case.name == name);
        match case.expect("a case of this name").answer {
            Answer::Ran(answer) => answer.completed,
            _ => panic!("{name} is no run"),
        }
    };
    assert_eq!(completed("run/stopped-at-its-1st-step-by-14"), 0);
    assert_eq!(completed("run/stopped-at-its-1st-step-by-15"), 0);
    assert_eq!(completed("run/stopped-at-its-6th-step-by-14"), 5);
    assert_eq!(completed("run/stopped-at-its-46th-step-by-15"), 45);
    assert_eq!(completed("run/stopped-at-its-64th-step-by-13"), 63);
    assert_eq!(completed("page-run/stopped-at-its-4th-step-by-13"), 3);
    assert_eq!(completed("run/80-steps-open"), 54);
    assert_eq!(completed("run/marks-stopped-by-13"), 56);
    assert_eq!(completed("run/marks-stopped-by-15"), 45);
    assert_eq!(completed("list/marks/4"), 32);
    assert_eq!(completed("list/held/9"), 16);
    assert_eq!(completed("run/0-steps-of-what-would-stop"), 0);
    assert_eq!(completed("run/10000-steps-of-nothing"), 10_000);
}
