//! Times every operation of the proved engine against Rust written for speed.
//!
//! `benchmark [ROUNDS] [[-]NAME]`: 101 rounds where no number is given; only the lines whose name has NAME in it,
//! or, with -NAME, has not.

use benchmark::library::{OPTIMISED, PROVED};
use benchmark::tables::{arguments, duration, tables};

fn main() {
    let (_, rounds, chosen) = arguments(0, "benchmark [ROUNDS] [[-]NAME]");
    println!("median of {rounds} rounds, both libraries in turn in each; the spread has nine rounds in ten");
    let head = ["proved", "Rust", "ratio", "nine in ten"];
    tables(
        [&[PROVED], &[OPTIMISED]],
        rounds,
        &chosen,
        &head,
        |_, found, parts| {
            let [low, high] = found.spread;
            let [proved, rust] = found.times.map(|time| duration(time / parts as f64));
            vec![
                proved,
                rust,
                format!("{:.2}", found.ratio),
                format!("{low:.2} to {high:.2}"),
            ]
        },
    );
}
