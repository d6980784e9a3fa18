//! The values that the library's calls hand out: those of the reference's result, in the order of the
//! C header; those that were there before where the call is refused, but for a run.

use compare::calls::{by_library, by_reference, library};
use compare::inputs::{self, Call, Make, MakeFor};
use compare::{count, stream};
use reference::generator::Generator;
use reference::Caller;
use vectors::Answer;

/// What the values hold before a call; no result has it.
const BEFORE: i64 = i64::MIN;

/// The values of a result, none where the call is refused.
fn values(answer: Answer) -> Option<Vec<i128>> {
    match answer {
        Answer::Particle(particle) => Some(particle.fields().to_vec()),
        Answer::Count(number) | Answer::Length(number) => Some(vec![number as i128]),
        Answer::Totals(totals) => Some(totals.values().to_vec()),
        Answer::Weights(row) => Some(row.to_vec()),
        Answer::Ran(answer) => Some(vec![answer.completed as i128]),
        Answer::Header(header) => Some(header.values().to_vec()),
        Answer::Refused(_) => None,
        other => panic!("no values: {other:?}"),
    }
}

/// Calls with values to hand out, on one input in ten.
fn compare_by(name: &str, caller: Caller, make: impl Fn(&mut Generator) -> Call) {
    for input in 0..count().div_ceil(10) {
        let (operation, before) = make(&mut stream(name, input));
        let mut after = before.clone();
        let found = by_library(library(caller), operation, &mut after, BEFORE);
        let (code, found) = found.expect("numbers that the library takes");
        let mut expected = before.clone();
        let answer = by_reference(caller, operation, &mut expected);
        let refusal = answer.refusal();
        let told = refusal.map_or(0, |r| u64::from(r.number) << 32 | r.place as u64);
        assert!(code == told && after == expected, "{name}: {operation:?}");
        let kept = vec![BEFORE.into(); found.len()];
        let found: Vec<i128> = found.into_iter().map(i128::from).collect();
        assert_eq!(found, values(answer).unwrap_or(kept), "{name}");
    }
}

/// An operation that knows no caller.
fn compare(name: &str, make: Make) {
    compare_by(name, Caller::Bench, make);
}

/// An operation for both callers.
fn compare_for(name: &str, make: MakeFor) {
    for caller in Caller::ALL {
        compare_by(name, caller, |numbers| make(numbers, caller));
    }
}

#[test]
fn arrays() {
    compare("values of a record", inputs::read_record);
    compare_for("values of a file", inputs::read_file);
    compare_for("values of totals", inputs::totals);
    compare("values of weights", inputs::weights);
}

#[test]
fn one_value() {
    compare_for("count of a set", inputs::check_set);
    compare_for("steps of a run", inputs::run);
    compare("length of a return", inputs::return_to);
}
