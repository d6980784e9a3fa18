//! A step and a run.

use std::mem::MaybeUninit;

use crate::caller::{Caller, Limits};
use crate::refused;
use crate::set::{check_given, pack, unpack, Room, MOST};
use crate::settings::Settings;
use crate::spline::table;
use crate::transfer::{gather_all, scatter_all};
use crate::update::update_all;

/// The completed steps, and the refusal if one stopped the run, of a set of checked length.
#[inline(never)]
fn run_set(
    settings: &Settings,
    steps: usize,
    records: &mut [u8],
    mass: &mut [u64],
    px: &mut [i64],
    py: &mut [i64],
) -> Result<usize, (usize, u64)> {
    let &Settings { nx, ny, .. } = settings;
    let mut rooms: [Room; 2] = [[MaybeUninit::uninit(); MOST]; 2];
    let [from, to] = &mut rooms;
    let count = unpack(nx, ny, records, from)
        .map_err(|refusal| (0, refusal))?
        .len();
    let (mut from, mut to) = (&mut from[..count], &mut to[..count]);
    let table = &table();
    let mut stopped = None;
    let mut completed = 0;
    while completed < steps {
        // SAFETY: unpacking or the step before has written these.
        let particles = unsafe { from.assume_init_ref() };
        scatter_all(particles, nx, table, mass, px, py);
        update_all(settings, mass, px, py);
        if let Err(refusal) = gather_all(particles, nx, ny, table, px, py, to) {
            stopped = Some(refusal);
            break;
        }
        completed += 1;
        (from, to) = (to, from);
    }
    if completed > 0 {
        // SAFETY: as above.
        pack(unsafe { from.assume_init_ref() }, records);
    }
    stopped.map_or(Ok(completed), |refusal| Err((completed, refusal)))
}

/// The completed steps, and the refusal if one stopped the run.
#[inline(always)]
fn ran(
    limits: Limits,
    settings: &Settings,
    steps: usize,
    records: &mut [u8],
    mass: &mut [u64],
    px: &mut [i64],
    py: &mut [i64],
) -> Result<usize, (usize, u64)> {
    let entry = || {
        let grids = [mass.len(), px.len(), py.len()];
        check_given(limits, settings.nx, settings.ny, records.len(), grids)?;
        settings.check_forces()?;
        if steps > 10_000 {
            Err(refused(17, 0))
        } else {
            Ok(())
        }
    };
    entry().map_err(|refusal| (0, refusal))?;
    run_set(settings, steps, records, mass, px, py)
}

/// Step.
#[allow(clippy::too_many_arguments)]
#[inline(always)]
pub fn step(
    caller: Caller,
    nx: usize,
    ny: usize,
    gx: i64,
    gy: i64,
    kind: usize,
    width: usize,
    drag: usize,
    records: &mut [u8],
    mass: &mut [u64],
    px: &mut [i64],
    py: &mut [i64],
) -> u64 {
    let settings = Settings::new(nx, ny, gx, gy, kind, width, drag);
    match ran(caller.limits(), &settings, 1, records, mass, px, py) {
        Ok(_) => 0,
        Err((_, refusal)) => refusal,
    }
}

/// Run: the number of completed steps.
#[allow(clippy::too_many_arguments)]
#[inline(always)]
pub fn run(
    caller: Caller,
    nx: usize,
    ny: usize,
    gx: i64,
    gy: i64,
    kind: usize,
    width: usize,
    drag: usize,
    steps: usize,
    records: &mut [u8],
    mass: &mut [u64],
    px: &mut [i64],
    py: &mut [i64],
    completed: &mut u64,
) -> u64 {
    let settings = Settings::new(nx, ny, gx, gy, kind, width, drag);
    let (count, answer) = match ran(caller.limits(), &settings, steps, records, mass, px, py) {
        Ok(count) => (count, 0),
        Err(stopped) => stopped,
    };
    *completed = count as u64;
    answer
}
