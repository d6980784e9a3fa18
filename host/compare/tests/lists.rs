//! Lists of step and run calls: each gets the records that the one before left, refused ones
//! included, and demand 3 holds of the whole list and of every completed step: identifiers, masses and
//! marks are kept, and so are the sums, with what drag and rim change at the nodes. Lists are the bench's, or
//! have calls of both callers on baths about the page's limits.

use compare::calls::agreed;
use compare::steps::{completed, particles, work};
use compare::{count, inputs, seed, stream};
use reference::conservation::Ledger;
use reference::generator::Generator;
use reference::{Caller, Size};

/// What came up in lists.
#[derive(Default)]
struct Seen {
    refused: usize,
    steps: usize,
    /// Refusals with 2 and 3 of baths that only the bench takes.
    too_large: [usize; 2],
}

/// One list: the set that it starts with, and who makes each call.
fn list(
    name: &str,
    number: u64,
    start: fn(&mut Generator) -> (Size, Vec<u8>),
    callers: &[Caller],
    seen: &mut Seen,
) {
    let told = format!("{name}, COMPARE_SEED {}, input {number}", seed());
    let mut numbers = stream(name, number);
    let (size, mut records) = start(&mut numbers);
    let mut sums = Ledger::new(&particles(&records));
    for _ in 0..numbers.between(1, 12) {
        let caller = callers[numbers.between(0, callers.len() as i128 - 1) as usize];
        let (operation, before) = inputs::list_call(&mut numbers, caller, size, &records);
        let called = agreed(&told, caller, operation, &before);
        let (answer, after) = called.expect("a call of the engine");
        let (done, settings) = completed(operation, &answer);
        work(done, settings, &mut records, &mut sums);
        assert_eq!(after.bytes, records, "{told}: the last completed step");
        if let Some(refusal) = answer.refusal() {
            seen.refused += 1;
            if caller == Caller::Page && settings.size == size {
                seen.too_large[0] += usize::from(refusal.number == 2);
                seen.too_large[1] += usize::from(refusal.number == 3);
            }
        }
        seen.steps += done;
    }
    let end = particles(&records);
    sums.check(&end)
        .unwrap_or_else(|why| panic!("{told}: {why}"));
}

#[test]
fn conservation() {
    let mut seen = Seen::default();
    for number in 0..count().div_ceil(10) {
        list(
            "list",
            number,
            inputs::accepted,
            &[Caller::Bench],
            &mut seen,
        );
    }
    let Seen { refused, steps, .. } = seen;
    assert!(refused > 0 && steps > 0, "{refused} refused, {steps} steps");
}

#[test]
fn conservation_for_both_callers() {
    let mut seen = Seen::default();
    let lists = count().div_ceil(20);
    for number in 0..lists {
        let start = inputs::accepted_about_the_page;
        list(
            "list of both callers",
            number,
            start,
            &Caller::ALL,
            &mut seen,
        );
    }
    let Seen {
        refused,
        steps,
        too_large,
    } = seen;
    assert!(refused > 0 && steps > 0, "{refused} refused, {steps} steps");
    assert!(
        lists < 500 || too_large.iter().all(|&times| times > 0),
        "{too_large:?}"
    );
}
