//! The stack that a call needs.
//!
//! | module | holds |
//! | --- | --- |
//! | [`painted`] | the engine on a stack of its own, and how much of it a call takes |
//! | [`calls`] | the calls that are measured |
//! | [`trial`] | the stack that the program needs |
//! | [`table`] | the table of README and of the C header |

pub mod calls;
pub mod painted;
pub mod table;
pub mod trial;

use compare::calls::by_library;
use painted::Stack;
use table::{Cell, Table, PROGRAM};

/// Every call that is measured, the program among them: the most that one of each cell needs.
pub fn measured() -> Table {
    let mut table = Table::default();
    let mut stack = Stack::new();
    calls::all(|caller, operation, mut buffers| {
        let particles = table::particles(operation, &buffers);
        let call = |library: &_| by_library(library, operation, &mut buffers, 0);
        // Some inputs have numbers that no call takes.
        if let (Some((answer, _)), depth) = stack.depth(caller, call) {
            table.raise(table::cell(caller, operation, particles, answer), depth);
        }
    });
    for (column, file) in calls::files() {
        let cell = Cell {
            row: PROGRAM,
            column,
        };
        table.raise(cell, trial::least(&file));
    }
    table
}
