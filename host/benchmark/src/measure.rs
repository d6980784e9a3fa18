//! Interleaved rounds, medians and spreads.

use std::time::{Duration, Instant};

use crate::library::Library;

/// Time of one call by each of two libraries, in nanoseconds, and the first's over the second's: medians
/// over the rounds, and how sure they are.
#[derive(Clone, Copy, Debug)]
pub struct Measured {
    /// Time of each.
    pub times: [f64; 2],
    /// Median ratio.
    pub ratio: f64,
    /// Nine ratios in ten are from the first to the second.
    pub spread: [f64; 2],
    /// The median of ever more rounds would be from the first to the second, in 19 cases of 20, where no
    /// round has to do with another.
    pub sure: [f64; 2],
}

/// How long one library's part of a round is, if it has at least five calls.
const PART: Duration = Duration::from_millis(4);

/// What is timed.
pub trait Subject {
    /// Puts the buffers back.
    fn prepare(&mut self);
    /// The call that is timed.
    fn call(&mut self, library: &Library);
}

/// The median time of `repeats` calls.
fn time(subject: &mut dyn Subject, library: &Library, repeats: u32) -> f64 {
    let mut times = Vec::new();
    for _ in 0..repeats {
        subject.prepare();
        let start = Instant::now();
        subject.call(library);
        times.push(start.elapsed().as_secs_f64() * 1e9);
    }
    at(&sorted(times), 0.5)
}

/// The number at this part of a sorted list.
fn at(sorted: &[f64], part: f64) -> f64 {
    sorted[((sorted.len() - 1) as f64 * part).round() as usize]
}

fn sorted(mut numbers: Vec<f64>) -> Vec<f64> {
    numbers.sort_by(f64::total_cmp);
    numbers
}

/// Times two libraries in turn, each first in every other round. Of each there may be several copies,
/// which take turns as well, so that no place in memory decides.
pub fn measure(subject: &mut dyn Subject, libraries: [&[Library]; 2], rounds: usize) -> Measured {
    let once = libraries.map(|copies| time(subject, &copies[0], 3));
    let longer = once[0].max(once[1]);
    let repeats = (PART.as_secs_f64() * 1e9 / longer).clamp(5.0, 20_000.0) as u32;
    let mut times = [Vec::new(), Vec::new()];
    for round in 0..rounds {
        for turn in 0..2 {
            let which = (round + turn) % 2;
            let copies = libraries[which];
            let library = &copies[round / 2 % copies.len()];
            times[which].push(time(subject, library, repeats));
        }
    }
    let ratios = times[0].iter().zip(&times[1]).map(|(a, b)| a / b);
    let ratios = sorted(ratios.collect());
    // The number of rounds on one side of the median has a deviation of half the root of all.
    let apart = (0.98 / (rounds as f64).sqrt()).min(0.5);
    Measured {
        times: times.map(|times| at(&sorted(times), 0.5)),
        ratio: at(&ratios, 0.5),
        spread: [at(&ratios, 0.05), at(&ratios, 0.95)],
        sure: [at(&ratios, 0.5 - apart), at(&ratios, 0.5 + apart)],
    }
}
