//! Steps and runs.

use crate::caller::Caller;
use crate::grid::{GridBuffers, Settings};
use crate::limits::MAX_STEPS;
use crate::particle_set::{check_given, walk};
use crate::refusal::{require, Refusal, NEW_PLACE, NEW_VELOCITY, STEPS};
use crate::transfer::{gather_for, scatter_for, update_for, Sums};

/// The answer of a run: steps completed, and the first refusal if one stopped it.
#[must_use]
#[derive(Clone, Copy, Debug, PartialEq, Eq, Hash)]
pub struct RunAnswer {
    /// Number of completed steps.
    pub completed: usize,
    /// What stopped the run, at entry or at the next step.
    pub refusal: Option<Refusal>,
}

/// Refuses 2; 1, also for the grid buffers; 3; 10; 18; 19; 17; the set. A step asks for one step.
fn check_entry(
    caller: Caller,
    settings: Settings,
    steps: i128,
    records: &[u8],
    grid: &GridBuffers,
) -> Result<(), Refusal> {
    check_given(caller.limits(), settings.size, records, &grid.lengths())?;
    settings.check_forcing()?;
    require((0..=MAX_STEPS).contains(&steps), STEPS, 0)?;
    walk(settings.size, records, 0)?;
    Ok(())
}

/// One step after the entry checks; only 13, 14 and 15 can come.
fn advance(
    caller: Caller,
    sums: Sums,
    settings: Settings,
    records: &mut [u8],
    grid: &mut GridBuffers,
) -> Result<(), Refusal> {
    let size = settings.size;
    scatter_for(caller, sums, size, records, grid).expect("entry checks passed");
    update_for(caller, settings, grid).expect("a scattered set can be updated");
    gather_for(caller, sums, size, records, grid.x, grid.y).inspect_err(|refusal| {
        assert!((NEW_VELOCITY..=NEW_PLACE).contains(&refusal.number));
    })
}

/// Step: scatter, update, gather. Refused at entry: 2, 1, 3, 10, 18, 19, the set, and nothing has
/// changed. Refused with 13, 14, 15: the records are as they were, the grid holds masses and updated
/// velocities.
pub fn step(settings: Settings, records: &mut [u8], grid: &mut GridBuffers) -> Result<(), Refusal> {
    step_by(Sums::Literal, settings, records, grid)
}

/// Step by the given sums.
pub fn step_by(
    sums: Sums,
    settings: Settings,
    records: &mut [u8],
    grid: &mut GridBuffers,
) -> Result<(), Refusal> {
    step_for(Caller::Bench, sums, settings, records, grid)
}

/// A caller's step.
pub fn step_for(
    caller: Caller,
    sums: Sums,
    settings: Settings,
    records: &mut [u8],
    grid: &mut GridBuffers,
) -> Result<(), Refusal> {
    check_entry(caller, settings, 1, records, grid)?;
    advance(caller, sums, settings, records, grid)
}

/// Run: the step repeated, as often as wanted or until one is refused. Refused at entry: 2, 1, 3, 10,
/// 18, 19, 17, the set. The records are those of the last completed step, the grid that of the last step
/// tried; a run of 0 steps touches nothing.
pub fn run(
    settings: Settings,
    steps: i128,
    records: &mut [u8],
    grid: &mut GridBuffers,
) -> RunAnswer {
    run_by(Sums::Literal, settings, steps, records, grid)
}

/// Run by the given sums.
pub fn run_by(
    sums: Sums,
    settings: Settings,
    steps: i128,
    records: &mut [u8],
    grid: &mut GridBuffers,
) -> RunAnswer {
    run_for(Caller::Bench, sums, settings, steps, records, grid)
}

/// A caller's run.
pub fn run_for(
    caller: Caller,
    sums: Sums,
    settings: Settings,
    steps: i128,
    records: &mut [u8],
    grid: &mut GridBuffers,
) -> RunAnswer {
    let mut completed = 0;
    let mut refusal = check_entry(caller, settings, steps, records, grid).err();
    while refusal.is_none() && (completed as i128) < steps {
        match advance(caller, sums, settings, records, grid) {
            Ok(()) => completed += 1,
            Err(stopped) => refusal = Some(stopped),
        }
    }
    RunAnswer { completed, refusal }
}
