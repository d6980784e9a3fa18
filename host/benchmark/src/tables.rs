//! Tables of times: two libraries on a full bath, on a small one, and on baths of growing sizes.

use crate::bath::Bath;
use crate::library::Library;
use crate::lines::{Line, Timed};
use crate::measure::{measure, Measured};

/// A time for people.
pub fn duration(nanoseconds: f64) -> String {
    if nanoseconds < 1_000.0 {
        format!("{nanoseconds:.1} ns")
    } else {
        format!("{:.1} µs", nanoseconds / 1e3)
    }
}

/// What a command is given: so many words of its own, then the number of rounds, 101 where there is none,
/// and a part of the names of the lines that are wanted, or, after a minus, of those that are not.
///
/// # Panics
///
/// Where words are missing or the number is none.
pub fn arguments(own: usize, usage: &str) -> (Vec<String>, usize, String) {
    let mut words: Vec<String> = std::env::args().skip(1).collect();
    assert!(words.len() >= own, "usage: {usage}");
    let mut rest = words.split_off(own).into_iter();
    let rounds = rest.next().map_or(101, |text| {
        let number = text.parse();
        number.unwrap_or_else(|_| panic!("no number of rounds: {text}; usage: {usage}"))
    });
    (words, rounds, rest.next().unwrap_or_default())
}

/// Whether a line is wanted.
fn is_wanted(name: &str, chosen: &str) -> bool {
    match chosen.strip_prefix('-') {
        Some(part) => !name.contains(part),
        None => name.contains(chosen),
    }
}

/// Prints the tables of two libraries, each with its copies. `head` names the columns after the first, and `row` tells what stands there, for a
/// line's name with its bath, what was measured, and how many parts a call has.
pub fn tables(
    libraries: [&[Library]; 2],
    rounds: usize,
    chosen: &str,
    head: &[&str],
    mut row: impl FnMut(&str, Measured, usize) -> Vec<String>,
) {
    let start = |first: &str| {
        println!("\n| {first} | {} |", head.join(" | "));
        println!("|{}", " --- |".repeat(1 + head.len()));
    };
    let mut line = |name: &str, line: Line, bath: &Bath| {
        let mut timed = Timed::new(line, bath);
        let found = measure(&mut timed, libraries, rounds);
        let whole = format!("{}, {bath}", line.name());
        println!(
            "| {name} | {} |",
            row(&whole, found, timed.parts()).join(" | ")
        );
    };
    for bath in [Bath::new(4096, 48, 40), Bath::new(64, 8, 100)] {
        start(&bath.to_string());
        for operation in Line::ALL {
            if is_wanted(operation.name(), chosen) {
                line(operation.name(), operation, &bath);
            }
        }
    }
    if (chosen.is_empty() || chosen.starts_with('-')) && is_wanted(Line::RUN.name(), chosen) {
        let growing = [256, 1024, 4096].map(|count| Bath::new(count, 48, 40));
        let widening = [12, 24, 48].map(|side| Bath::new(64, side, 40));
        for baths in [growing, widening] {
            start(Line::RUN.name());
            for bath in &baths {
                line(&bath.to_string(), Line::RUN, bath);
            }
        }
    }
}
