//! Sets added in parts: the engine's grid is that of the whole set, in whichever order, also where the page adds
//! parts of a set that is too large for it. Lists of adding scatters: each gets the grid that the one before left,
//! refused ones included, and an update takes it.

use std::collections::BTreeSet;

use compare::calls::agreed;
use compare::{count, inputs, seed, stream};
use reference::generator::Generator;
use reference::limits::RECORD_LENGTH;
use reference::{Caller, Grid, Settings, Size};
use vectors::{Answer, Buffers, Operation};

/// The grid that an accepted call of the engine leaves.
fn left(name: &str, caller: Caller, operation: Operation, bytes: &[u8], grid: Grid) -> Grid {
    let bytes = bytes.to_vec();
    let called = agreed(name, caller, operation, &Buffers::new(bytes, grid));
    let (answer, after) = called.expect("a call of the engine");
    assert_eq!(answer, Answer::Done, "{name}");
    after.grid
}

/// The parts, added one after the other to a zero grid by a caller, give the set's grid.
fn whole_by(caller: Caller, name: &str, (size, records): &(Size, Vec<u8>), parts: &[&[u8]]) {
    let zero = || Grid::zero(size.nodes());
    let scatter = Operation::Scatter(*size);
    let set = left(name, Caller::Bench, scatter, records, zero());
    let added = parts.iter().fold(zero(), |grid, part| {
        left(name, caller, Operation::AddingScatter(*size), part, grid)
    });
    assert!(added == set, "{name}: another grid than the set's");
}

/// The same by the bench.
fn whole(name: &str, set: &(Size, Vec<u8>), parts: &[&[u8]]) {
    whole_by(Caller::Bench, name, set, parts);
}

/// One set in two parts, cut at some records, in either order, and dealt out to many.
fn parts(name: &str, numbers: &mut Generator, set: &(Size, Vec<u8>), cuts: &[usize]) {
    let records = &set.1;
    for cut in cuts {
        let (first, last) = records.split_at(cut * RECORD_LENGTH);
        whole(name, set, &[first, last]);
        whole(name, set, &[last, first]);
    }
    let count = numbers.between(1, 7) as usize;
    let dealt = numbers.parts(records, count);
    whole(
        name,
        set,
        &dealt.iter().map(Vec::as_slice).collect::<Vec<_>>(),
    );
}

#[test]
fn parts_of_small_sets() {
    for number in 0..count().div_ceil(40) {
        let name = format!("parts, COMPARE_SEED {}, input {number}", seed());
        let mut numbers = stream("parts", number);
        let set = inputs::accepted(&mut numbers);
        let cuts: Vec<usize> = (0..=set.1.len() / RECORD_LENGTH).collect();
        parts(&name, &mut numbers, &set, &cuts);
    }
}

#[test]
fn parts_of_full_sets() {
    for number in 0..count().div_ceil(4_000) {
        let mut numbers = stream("parts of a full set", number);
        let set = inputs::full_set(&mut numbers, Caller::Bench, 4_096);
        let cuts = [1, numbers.between(2, 4_094) as usize, 4_095];
        parts("parts of a full set", &mut numbers, &set, &cuts);
    }
}

/// Sets of more records than the page takes, on a grid that it takes, in parts of as many as it takes.
#[test]
fn parts_for_the_page() {
    let most = Caller::Page.limits().records as usize;
    for number in 0..count().div_ceil(4_000) {
        let name = "parts for the page";
        let mut numbers = stream(name, number);
        let records = numbers.between(most as i128 + 1, 4_096) as usize;
        let set = inputs::full_set(&mut numbers, Caller::Page, records);
        let mut parts: Vec<&[u8]> = set.1.chunks(most * RECORD_LENGTH).collect();
        whole_by(Caller::Page, name, &set, &parts);
        parts.reverse();
        whole_by(Caller::Page, name, &set, &parts);
    }
}

/// One list; the numbers of its refusals, and 0 where a set was added.
fn list(number: u64) -> BTreeSet<u32> {
    let name = format!("list of additions, COMPARE_SEED {}, input {number}", seed());
    let mut numbers = stream("list of additions", number);
    let (size, mut grid) = inputs::present(&mut numbers);
    let mut seen = BTreeSet::new();
    for _ in 0..numbers.between(1, 12) {
        let (operation, before) = inputs::addition(&mut numbers, size, &grid);
        let called = agreed(&name, Caller::Bench, operation, &before);
        let (answer, after) = called.expect("a call of the engine");
        match answer.refusal() {
            Some(_) => assert!(
                after == before,
                "{name}: a refused call that changes something"
            ),
            None => {
                let pull = |numbers: &mut Generator| numbers.one_of(&[-4096, 0, 4096]);
                let settings = Settings::new(size, pull(&mut numbers), pull(&mut numbers));
                let update = Operation::Update(settings);
                left(&name, Caller::Bench, update, &[], after.grid.clone());
            }
        }
        seen.insert(answer.refusal().map_or(0, |refusal| refusal.number));
        grid = after.grid;
    }
    seen
}

#[test]
fn lists() {
    let seen: BTreeSet<u32> = (0..count().div_ceil(10)).flat_map(list).collect();
    assert!(seen.contains(&0) && seen.contains(&21), "only {seen:?}");
    assert!(!seen.contains(&20), "a grid that was added to is refused");
}
