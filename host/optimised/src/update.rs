//! The update of a grid's nodes.

use std::hint::assert_unchecked;
use std::mem::MaybeUninit;

use crate::caller::{Caller, Limits};
use crate::rounding::rounded;
use crate::settings::{Settings, OPEN, STICKY};
use crate::{answer, refused};

/// The largest number of nodes.
pub const MOST_NODES: usize = 48 * 48;

/// momentum/(4·mass) to nearest, at a half the even neighbour, plus gravity; 0 without mass. For a
/// mass of at most 2^43.
#[inline(always)]
fn velocity(gravity: i64, mass: u64, momentum: i64) -> i64 {
    if mass == 0 {
        return 0;
    }
    let (size, divisor) = (momentum.unsigned_abs(), 4 * mass);
    let (quotient, rest) = (size / divisor, size % divisor);
    let size = quotient + u64::from(rest + (quotient & 1) > divisor - rest);
    let rounded = if momentum < 0 {
        -(size as i64)
    } else {
        size as i64
    };
    rounded + gravity
}

/// What drag leaves of a velocity within ±131,072: it loses u·drag/256, to nearest, at a half the even
/// neighbour.
#[inline(always)]
fn slowed(drag: usize, u: i64) -> i64 {
    u - rounded::<8>(u * drag as i64)
}

/// Stills the nodes of the first and the last columns.
fn still_columns(width: usize, nx: usize, u: &mut [i64]) {
    for row in u.chunks_exact_mut(nx) {
        for k in 0..width {
            row[k] = 0;
            row[nx - 1 - k] = 0;
        }
    }
}

/// Stills the nodes of the first and the last rows.
fn still_rows(width: usize, nx: usize, u: &mut [i64]) {
    let (nodes, band) = (u.len(), width * nx);
    u[..band].fill(0);
    u[nodes - band..].fill(0);
}

/// Stills the nodes of the edge's band.
#[inline(always)]
fn still_band(settings: &Settings, ux: &mut [i64], uy: &mut [i64]) {
    let &Settings {
        nx, kind, width, ..
    } = settings;
    if kind == OPEN {
        return;
    }
    still_columns(width, nx, ux);
    still_rows(width, nx, uy);
    if kind == STICKY {
        still_columns(width, nx, uy);
        still_rows(width, nx, ux);
    }
}

/// Puts velocities in the place of momenta, each as `left` leaves it.
#[inline(always)]
fn update_nodes(
    settings: &Settings,
    mass: &[u64],
    px: &mut [i64],
    py: &mut [i64],
    left: impl Fn(i64) -> i64,
) {
    for ((&mass, px), py) in mass.iter().zip(px).zip(py) {
        *px = left(velocity(settings.gx, mass, *px));
        *py = left(velocity(settings.gy, mass, *py));
    }
}

/// The update of nodes that keep to every limit, their momenta and velocities within 54 bits.
pub fn update_all(settings: &Settings, mass: &[u64], px: &mut [i64], py: &mut [i64]) {
    match settings.drag {
        0 => update_nodes(settings, mass, px, py, |u| u),
        drag => update_nodes(settings, mass, px, py, |u| slowed(drag, u)),
    }
    still_band(settings, px, py);
}

/// Whether the buffers are as long as there are nodes.
#[inline(always)]
pub fn check_lengths<const N: usize>(nodes: usize, lengths: [usize; N]) -> Result<(), u64> {
    if lengths.into_iter().all(|length| length == nodes) {
        Ok(())
    } else {
        Err(refused(1, 0))
    }
}

/// Whether a node's velocity is within ±131,072.
#[inline(always)]
pub fn is_slow(velocity: i64) -> bool {
    velocity.unsigned_abs() <= 131_072
}

/// Checks every node, then puts velocities in the place of momenta, each as `left` leaves it. The
/// buffers are as long as a grid has nodes.
#[inline(never)]
fn update_checked(
    gx: i64,
    gy: i64,
    mass: &[u64],
    px: &mut [i64],
    py: &mut [i64],
    left: impl Fn(i64) -> i64,
) -> Result<(), u64> {
    let mut found = [[MaybeUninit::uninit(); 2]; MOST_NODES];
    // SAFETY: a grid has as many nodes.
    unsafe { assert_unchecked((16..=found.len()).contains(&mass.len())) };
    for (k, found) in found[..mass.len()].iter_mut().enumerate() {
        // SAFETY: each buffer is as long.
        let (mass, px, py) = unsafe {
            (
                *mass.get_unchecked(k),
                *px.get_unchecked(k),
                *py.get_unchecked(k),
            )
        };
        if mass == 0 && px == 0 && py == 0 {
            *found = [MaybeUninit::new(0); 2];
            continue;
        }
        if mass == 0 || mass > 1 << 43 {
            return Err(refused(11, k));
        }
        let (x, y) = (velocity(gx, mass, px), velocity(gy, mass, py));
        if !is_slow(x) || !is_slow(y) {
            return Err(refused(12, k));
        }
        *found = [MaybeUninit::new(left(x)), MaybeUninit::new(left(y))];
    }
    for ((found, px), py) in found.iter().zip(px).zip(py) {
        // SAFETY: the loop above has written as many.
        [*px, *py] = found.map(|velocity| unsafe { velocity.assume_init() });
    }
    Ok(())
}

#[inline(always)]
fn updated(
    limits: Limits,
    settings: &Settings,
    mass: &[u64],
    px: &mut [i64],
    py: &mut [i64],
) -> Result<(), u64> {
    let &Settings { nx, ny, gx, gy, .. } = settings;
    limits.check_size(nx, ny)?;
    check_lengths(nx * ny, [mass.len(), px.len(), py.len()])?;
    settings.check_forces()?;
    match settings.drag {
        0 => update_checked(gx, gy, mass, px, py, |u| u)?,
        drag => update_checked(gx, gy, mass, px, py, |u| slowed(drag, u))?,
    }
    still_band(settings, px, py);
    Ok(())
}

/// Update.
#[allow(clippy::too_many_arguments)]
#[inline(always)]
pub fn update(
    caller: Caller,
    nx: usize,
    ny: usize,
    gx: i64,
    gy: i64,
    kind: usize,
    width: usize,
    drag: usize,
    mass: &[u64],
    px: &mut [i64],
    py: &mut [i64],
) -> u64 {
    let settings = Settings::new(nx, ny, gx, gy, kind, width, drag);
    answer(updated(caller.limits(), &settings, mass, px, py))
}

#[cfg(test)]
mod tests {
    use super::{slowed, velocity};
    use crate::rounding::tests::halves;
    use reference::transfer::{after_drag, node_velocity};

    /// Momenta that are halves, and beside them, at small masses and large ones.
    #[test]
    fn velocities_as_the_reference() {
        for mass in [1, 2, 3, 7, (1 << 42) + 1, (1 << 43) - 1, 1 << 43] {
            for halves in halves() {
                for beside in -2..=2 {
                    let momentum = 2 * mass * halves + beside;
                    let expected = node_velocity(mass as u64, momentum, -3);
                    let found = velocity(-3, mass as u64, momentum);
                    assert_eq!(i128::from(found), expected, "{momentum} by {mass}");
                }
            }
        }
    }

    #[test]
    fn drags_as_the_reference() {
        for drag in 0..=255 {
            for u in (-1_300..=1_300).chain([-131_072, -131_071, 131_071, 131_072]) {
                let expected = after_drag(u.into(), drag as i128);
                assert_eq!(i128::from(slowed(drag, u)), expected, "{u} under {drag}");
            }
        }
    }
}
