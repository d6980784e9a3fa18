//! Makes one call, so that another program can count what it does, as `valgrind --tool=callgrind` counts instructions.
//!
//! `once LIBRARY PARTICLES SIDE NAME`: LIBRARY is `proved`, `rust`, or `none` for the preparations alone; NAME is the operation's
//! name in the benchmark's table.

use benchmark::bath::Bath;
use benchmark::library::{OPTIMISED, PROVED};
use benchmark::lines::{Line, Timed};
use benchmark::measure::Subject;

fn main() {
    let words: Vec<String> = std::env::args().skip(1).collect();
    let [library, particles, side, name] = &words[..] else {
        panic!("usage: once LIBRARY PARTICLES SIDE NAME");
    };
    let number = |text: &String| text.parse().expect("a number");
    let bath = Bath::new(number(particles), number(side), 40);
    let line = Line::ALL.into_iter().find(|line| line.name() == name);
    let mut timed = Timed::new(line.expect("the name of an operation"), &bath);
    timed.prepare();
    match library.as_str() {
        "proved" => timed.call(&PROVED),
        "rust" => timed.call(&OPTIMISED),
        "none" => {}
        other => panic!("no such library: {other}"),
    }
}
