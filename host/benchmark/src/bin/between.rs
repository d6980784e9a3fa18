//! Times one build of the static library against another.
//!
//! `between BEFORE AFTER [ROUNDS] [[-]NAME]`: both are static libraries; 101 rounds where no number is given;
//! only the lines whose name has NAME in it, or, with -NAME, has not. The ratio is that of AFTER to BEFORE. The
//! same library twice tells what the machine's noise is.

use std::path::Path;

use benchmark::library::{load, Library};
use benchmark::tables::{arguments, duration, tables};
use program::Room;

/// How often each is loaded.
const COPIES: usize = 4;
/// What a line may lose.
const MOST: f64 = 1.02;

fn main() {
    let usage = "between BEFORE AFTER [ROUNDS] [[-]NAME]";
    let (files, rounds, chosen) = arguments(2, usage);
    let room = Room::new("between");
    let load = |file: &String, name: String| -> Library {
        // SAFETY: whoever runs this says that it is a build of the library.
        let library = unsafe { load(Path::new(file), &room.path(""), &name) };
        library.unwrap_or_else(|why| panic!("{file}: {why}"))
    };
    let copies = |k: usize| {
        let copy = |n: usize| load(&files[k], format!("{k}-{n}"));
        (0..COPIES).map(copy).collect::<Vec<Library>>()
    };
    let (before, after) = (copies(0), copies(1));
    println!(
        "before: {}, after: {}; median of {rounds} rounds, both in turn in each",
        files[0], files[1]
    );
    println!("the median is in its range in 19 cases of 20; the spread has nine rounds in ten");
    let head = ["after", "before", "ratio", "its range", "nine in ten"];
    let (mut slower, mut unsure) = (Vec::new(), Vec::new());
    tables(
        [&after, &before],
        rounds,
        &chosen,
        &head,
        |name, found, parts| {
            if found.sure[0] > MOST {
                slower.push(name.to_owned());
            } else if found.sure[1] > MOST {
                unsure.push(name.to_owned());
            }
            let range = |[low, high]: [f64; 2]| format!("{low:.3} to {high:.3}");
            let [after, before] = found.times.map(|time| duration(time / parts as f64));
            let ratio = format!("{:.3}", found.ratio);
            vec![after, before, ratio, range(found.sure), range(found.spread)]
        },
    );
    println!(
        "\nmore than {MOST} of the time before: {slower:?}\nnot to be told from that: {unsure:?}"
    );
}
