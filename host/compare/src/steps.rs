//! The completed steps of step and run calls, and what demand 3 keeps over them.

use reference::conservation::{Ledger, NodeChanges};
use reference::limits::RECORD_LENGTH;
use reference::simulation::step_by;
use reference::{Grid, Particle, Settings, Sums};
use vectors::{Answer, Operation};

/// The particles of accepted records.
pub fn particles(records: &[u8]) -> Vec<Particle> {
    let record = |bytes: &[u8]| Particle::unpack(bytes.try_into().expect("a record"));
    records.chunks(RECORD_LENGTH).map(record).collect()
}

/// How many steps a call says it completed, and the settings that it was given.
///
/// # Panics
///
/// Where it is neither a step nor a run.
pub fn completed(operation: Operation, answer: &Answer) -> (usize, Settings) {
    match (operation, answer) {
        (Operation::Step(settings), Answer::Done) => (1, settings),
        (Operation::Step(settings), Answer::Refused(_)) => (0, settings),
        (Operation::Run(settings, _), Answer::Ran(answer)) => (answer.completed, settings),
        other => panic!("a step or a run answers otherwise: {other:?}"),
    }
}

/// Works the completed steps of one call, each checked by itself, into the list's sums.
///
/// # Panics
///
/// Where demand 3 does not hold of one of them.
pub fn work(steps: usize, settings: Settings, records: &mut [u8], sums: &mut Ledger) {
    for _ in 0..steps {
        let before = particles(records);
        let mut grid = Grid::zero(settings.size.nodes());
        let step = step_by(Sums::Nearby, settings, records, &mut grid.buffers());
        step.expect("a completed step is not refused");
        let mut alone = Ledger::new(&before);
        let changes = NodeChanges::of_step(&before, settings);
        for ledger in [&mut *sums, &mut alone] {
            ledger.count_step(&before, settings, changes);
        }
        alone.check(&particles(records)).expect("one step");
    }
}
