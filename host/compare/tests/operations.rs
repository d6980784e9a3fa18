//! Every operation on many inputs, for each caller that it serves: the same answer, refusal, place and buffers.

use std::collections::BTreeSet;

use compare::calls::agreed;
use compare::inputs::{self, Call, Make, MakeFor};
use compare::{count, seed, stream};
use reference::generator::Generator;
use reference::Caller;

/// From this many inputs on every refusal of the list has to come up.
const ENOUGH: u64 = 10_000;

/// Calls both with `count` inputs. Where they are enough, results and each of these refusals come up
/// at least once, and no other.
fn compare_by(
    name: &str,
    caller: Caller,
    make: impl Fn(&mut Generator) -> Call,
    refusals: impl IntoIterator<Item = u32>,
) {
    let mut seen = BTreeSet::new();
    for number in 0..count() {
        let (operation, before) = make(&mut stream(name, number));
        let told = format!("{name}, COMPARE_SEED {}, input {number}", seed());
        let called = agreed(&told, caller, operation, &before);
        let (answer, _) = called.expect("numbers that the engine takes");
        seen.insert(answer.refusal().map_or(0, |refusal| refusal.number));
    }
    let listed: BTreeSet<u32> = refusals.into_iter().chain([0]).collect();
    assert!(seen.is_subset(&listed), "{name}: {seen:?}");
    assert!(count() < ENOUGH || seen == listed, "{name}: only {seen:?}");
}

/// An operation that knows no caller.
fn compare(name: &str, make: Make, refusals: &[u32]) {
    compare_by(name, Caller::Bench, make, refusals.iter().copied());
}

/// An operation for the bench, with these refusals, and for the page, with these more.
fn compare_for(name: &str, make: MakeFor, refusals: &[u32], of_the_page: &[u32]) {
    let bench = |numbers: &mut Generator| make(numbers, Caller::Bench);
    compare_by(name, Caller::Bench, bench, refusals.iter().copied());
    let page = |numbers: &mut Generator| make(numbers, Caller::Page);
    let refusals = refusals.iter().chain(of_the_page).copied();
    compare_by(&format!("page: {name}"), Caller::Page, page, refusals);
}

#[test]
fn read_record() {
    compare("read a record", inputs::read_record, &[1, 4, 5, 6]);
}

#[test]
fn write_record() {
    compare("write a record", inputs::write_record, &[1, 4, 5, 6, 7]);
}

#[test]
fn check_set() {
    let refusals = [1, 2, 4, 5, 6, 7, 8, 9];
    compare_for("check a set", inputs::check_set, &refusals, &[3]);
}

#[test]
fn totals() {
    let refusals = [1, 2, 4, 5, 6, 7, 8, 9];
    compare_for("totals", inputs::totals, &refusals, &[3]);
}

#[test]
fn weights() {
    compare("weights", inputs::weights, &[7]);
}

#[test]
fn scatter() {
    let refusals = [1, 2, 4, 5, 6, 7, 8, 9];
    compare_for("scatter", inputs::scatter, &refusals, &[3]);
}

#[test]
fn adding_scatter() {
    let refusals = [1, 2, 4, 5, 6, 7, 8, 9, 20, 21];
    compare_for("adding scatter", inputs::adding_scatter, &refusals, &[3]);
}

#[test]
fn update() {
    let refusals = [1, 2, 10, 11, 12, 18, 19];
    compare_for("update", inputs::update, &refusals, &[]);
}

#[test]
fn gather() {
    let refusals = [1, 2, 4, 5, 6, 7, 8, 9, 12, 13, 14, 15];
    compare_for("gather", inputs::gather, &refusals, &[3]);
}

#[test]
fn step() {
    let refusals = [1, 2, 4, 5, 6, 7, 8, 9, 10, 13, 14, 15, 18, 19];
    compare_for("step", inputs::step, &refusals, &[3]);
}

#[test]
fn run() {
    let refusals = [1, 2, 4, 5, 6, 7, 8, 9, 10, 13, 14, 15, 17, 18, 19];
    compare_for("run", inputs::run, &refusals, &[3]);
}

#[test]
fn read_file() {
    let refusals = [1, 2, 3, 4, 5, 6, 7, 8, 9, 10, 16, 17, 18];
    compare_for("read a file", inputs::read_file, &refusals, &[]);
}

#[test]
fn write_header() {
    let refusals = [1, 2, 3, 10, 17, 18, 19];
    compare("write a header", inputs::write_header, &refusals);
}

#[test]
fn keep() {
    let refusals = [1, 2, 3, 4, 5, 6, 7, 8, 9, 10, 16, 17, 18, 22, 24];
    compare_for("keep", inputs::keep, &refusals, &[]);
}

#[test]
fn return_to() {
    compare("return", inputs::return_to, &[1, 22, 23]);
}

#[test]
fn forget() {
    compare("forget", inputs::forget, &[1, 22, 23]);
}
