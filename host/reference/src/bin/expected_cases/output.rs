//! What is printed behind a call's line.

use std::fmt::Display;

use reference::Refusal;

use crate::input::Lists;

/// A value that a call may give, before the call.
const BEFORE: i128 = 7;

/// A letter and numbers.
pub fn numbers<T: Display>(letter: char, numbers: &[T]) -> String {
    let shown: String = numbers.iter().map(|number| format!(" {number}")).collect();
    format!("{letter}{shown}\n")
}

/// Bytes that are no record.
pub fn bytes(bytes: &[u8]) -> String {
    numbers('b', bytes)
}

/// The refusal, 0 for none, and its place.
pub fn answer(answer: Result<(), Refusal>) -> String {
    let (number, place) =
        answer.map_or_else(|refusal| (refusal.number, refusal.place), |()| (0, 0));
    format!("= {number} {place}\n")
}

/// The answer, and the values, which a refused call leaves as they were.
pub fn values<const N: usize>(letter: char, given: Result<[i128; N], Refusal>) -> String {
    let left = given.unwrap_or([BEFORE; N]);
    answer(given.map(|_| ())) + &numbers(letter, &left)
}

/// A grid's buffers, whole.
pub fn buffers(lists: &Lists) -> String {
    numbers('m', &lists.mass.room) + &numbers('x', &lists.x.room) + &numbers('y', &lists.y.room)
}
