//! The transfers between particles and grid.

use std::mem::MaybeUninit;
use std::ops::AddAssign;

use crate::caller::{Caller, Limits};
use crate::particle::Particle;
use crate::rounding::rounded;
use crate::set::{check_given, last, pack, unpack, Room, MOST};
use crate::spline::{table, Place, Table};
use crate::update::{is_slow, MOST_NODES};
use crate::{answer, refused};

/// Adds every particle to the grids. The particles are on the grid, and each grid is Nx·Ny long.
#[inline(always)]
fn add_all(
    particles: &[Particle],
    nx: usize,
    table: &Table,
    mass: &mut [u64],
    px: &mut [i64],
    py: &mut [i64],
) {
    for p in particles {
        let (x, y) = (Place::of(p.x, table), Place::of(p.y, table));
        let [bxx, bxy, byx, byy] = [p.bxx, p.bxy, p.byx, p.byy].map(|b| 64 * i64::from(b));
        let m = i64::from(p.mass);
        // For the nearest node, and then node by node.
        let sx = 1024 * i64::from(p.vx) - i64::from(p.bxx) * x.q - i64::from(p.bxy) * y.q;
        let sy = 1024 * i64::from(p.vy) - i64::from(p.byx) * x.q - i64::from(p.byy) * y.q;
        let mut at = (y.node - 1) * nx + x.node - 1;
        let (mut sx, mut sy) = (sx - bxy, sy - byy);
        for weight in y.weights {
            let c = m * weight;
            let [lower, nearest, upper] = x.weights.map(|weight| c * weight);
            // SAFETY: the nine nodes around a particle on the grid are nodes.
            unsafe {
                *mass.get_unchecked_mut(at) += lower as u64;
                *mass.get_unchecked_mut(at + 1) += nearest as u64;
                *mass.get_unchecked_mut(at + 2) += upper as u64;
                *px.get_unchecked_mut(at) += lower * (sx - bxx);
                *px.get_unchecked_mut(at + 1) += nearest * sx;
                *px.get_unchecked_mut(at + 2) += upper * (sx + bxx);
                *py.get_unchecked_mut(at) += lower * (sy - byx);
                *py.get_unchecked_mut(at + 1) += nearest * sy;
                *py.get_unchecked_mut(at + 2) += upper * (sy + byx);
            }
            at += nx;
            sx += bxy;
            sy += byy;
        }
    }
}

/// Clears the grids and adds every particle, under the same conditions.
pub fn scatter_all(
    particles: &[Particle],
    nx: usize,
    table: &Table,
    mass: &mut [u64],
    px: &mut [i64],
    py: &mut [i64],
) {
    mass.fill(0);
    px.fill(0);
    py.fill(0);
    add_all(particles, nx, table, mass, px, py);
}

/// Velocity and B on one axis, to nearest, at a half the even neighbour, from the nine nodes of which
/// the first is at `at`.
#[inline(always)]
fn gather_axis(u: &[i64], nx: usize, at: usize, x: Place, y: Place) -> [i64; 3] {
    let row = |at: usize| {
        // SAFETY: the nine nodes around a particle on the grid are nodes.
        let [a, b, c] = unsafe {
            [
                *u.get_unchecked(at),
                *u.get_unchecked(at + 1),
                *u.get_unchecked(at + 2),
            ]
        };
        let (lower, upper) = (x.weights[0] * a, x.weights[2] * c);
        (lower + x.weights[1] * b + upper, upper - lower)
    };
    let [low, middle, high] = [row(at), row(at + nx), row(at + 2 * nx)];
    let (lower, upper) = (y.weights[0] * low.0, y.weights[2] * high.0);
    let sum = lower + y.weights[1] * middle.0 + upper;
    let across = y.weights[0] * low.1 + y.weights[1] * middle.1 + y.weights[2] * high.1;
    let up = upper - lower;
    [
        rounded::<34>(sum),
        rounded::<34>(64 * across - x.q * sum),
        rounded::<34>(64 * up - y.q * sum),
    ]
}

/// Moves every particle of `from` into `to`, or says which is refused. The particles are on the grid,
/// and each grid is Nx·Ny long.
pub fn gather_all(
    from: &[Particle],
    nx: usize,
    ny: usize,
    table: &Table,
    ux: &[i64],
    uy: &[i64],
    to: &mut [MaybeUninit<Particle>],
) -> Result<(), u64> {
    let (right, top) = (i64::from(last(nx)), i64::from(last(ny)));
    for (k, (p, to)) in from.iter().zip(to).enumerate() {
        let (x, y) = (Place::of(p.x, table), Place::of(p.y, table));
        let at = (y.node - 1) * nx + x.node - 1;
        let [vx, bxx, bxy] = gather_axis(ux, nx, at, x, y);
        let [vy, byx, byy] = gather_axis(uy, nx, at, x, y);
        if vx.unsigned_abs() > 63 || vy.unsigned_abs() > 63 {
            return Err(refused(13, k));
        }
        if [bxx, bxy, byx, byy].iter().any(|b| b.unsigned_abs() > 2047) {
            return Err(refused(14, k));
        }
        let (x, y) = (i64::from(p.x) + vx, i64::from(p.y) + vy);
        if x < 32 || x > right || y < 32 || y > top {
            return Err(refused(15, k));
        }
        to.write(Particle {
            mass: p.mass,
            x: x as i32,
            y: y as i32,
            vx: vx as i32,
            vy: vy as i32,
            bxx: bxx as i32,
            bxy: bxy as i32,
            byx: byx as i32,
            byy: byy as i32,
        });
    }
    Ok(())
}

/// Scatters a set of checked length onto grids of checked lengths.
#[inline(never)]
fn scatter_set(
    nx: usize,
    ny: usize,
    records: &[u8],
    mass: &mut [u64],
    px: &mut [i64],
    py: &mut [i64],
) -> Result<(), u64> {
    let mut room: Room = [MaybeUninit::uninit(); MOST];
    let particles = unpack(nx, ny, records, &mut room)?;
    scatter_all(particles, nx, &table(), mass, px, py);
    Ok(())
}

#[inline(always)]
fn scattered(
    limits: Limits,
    nx: usize,
    ny: usize,
    records: &[u8],
    mass: &mut [u64],
    px: &mut [i64],
    py: &mut [i64],
) -> Result<(), u64> {
    let grids = [mass.len(), px.len(), py.len()];
    check_given(limits, nx, ny, records.len(), grids)?;
    scatter_set(nx, ny, records, mass, px, py)
}

/// Scatter.
#[inline(always)]
pub fn scatter(
    caller: Caller,
    nx: usize,
    ny: usize,
    records: &[u8],
    mass: &mut [u64],
    px: &mut [i64],
    py: &mut [i64],
) -> u64 {
    answer(scattered(caller.limits(), nx, ny, records, mass, px, py))
}

/// The cells of a grid, with 0 in each.
fn cleared<T: Copy + From<u8>>(cells: &mut [MaybeUninit<T>]) -> &mut [T] {
    cells.fill(MaybeUninit::new(T::from(0)));
    // SAFETY: all are written.
    unsafe { cells.assume_init_mut() }
}

/// Scatters onto cells that are not cleared. Apart from its caller: inlined into the function whose
/// arrays they are, it takes several times as long.
#[inline(never)]
fn scatter_cells<'a>(
    particles: &[Particle],
    nx: usize,
    mass: &'a mut [MaybeUninit<u64>],
    px: &'a mut [MaybeUninit<i64>],
    py: &'a mut [MaybeUninit<i64>],
) -> (&'a [u64], &'a [i64], &'a [i64]) {
    let (mass, px, py) = (cleared(mass), cleared(px), cleared(py));
    add_all(particles, nx, &table(), mass, px, py);
    (mass, px, py)
}

/// Whether every node has a mass of at most 2^43 and momenta of at most 457,536 times it, and at most
/// 2^43 with what is added. Each grid is as long.
fn check_nodes(mass: &[u64], px: &[i64], py: &[i64], added: &[u64]) -> Result<(), u64> {
    let nodes = mass.iter().zip(px).zip(py).zip(added);
    for (k, (((&mass, px), py), added)) in nodes.enumerate() {
        let heavy = |mass: u64| mass > 1 << 43;
        let fast = |p: &i64| p.unsigned_abs() > 457_536 * mass;
        if heavy(mass) || fast(px) || fast(py) {
            return Err(refused(20, k));
        }
        if heavy(mass + added) {
            return Err(refused(21, k));
        }
    }
    Ok(())
}

/// Adds to each number the one at its place.
fn add<T: Copy + AddAssign>(to: &mut [T], added: &[T]) {
    for (to, &added) in to.iter_mut().zip(added) {
        *to += added;
    }
}

/// Adds a set of checked length to grids of checked lengths.
#[inline(never)]
fn add_set(
    nx: usize,
    ny: usize,
    records: &[u8],
    mass: &mut [u64],
    px: &mut [i64],
    py: &mut [i64],
) -> Result<(), u64> {
    let mut room: Room = [MaybeUninit::uninit(); MOST];
    let mut m = [MaybeUninit::uninit(); MOST_NODES];
    let [mut x, mut y] = [[MaybeUninit::uninit(); MOST_NODES]; 2];
    let particles = unpack(nx, ny, records, &mut room)?;
    let nodes = nx * ny;
    let (m, x, y) = scatter_cells(
        particles,
        nx,
        &mut m[..nodes],
        &mut x[..nodes],
        &mut y[..nodes],
    );
    check_nodes(mass, px, py, m)?;
    add(mass, m);
    add(px, x);
    add(py, y);
    Ok(())
}

#[inline(always)]
fn added(
    limits: Limits,
    nx: usize,
    ny: usize,
    records: &[u8],
    mass: &mut [u64],
    px: &mut [i64],
    py: &mut [i64],
) -> Result<(), u64> {
    let grids = [mass.len(), px.len(), py.len()];
    check_given(limits, nx, ny, records.len(), grids)?;
    add_set(nx, ny, records, mass, px, py)
}

/// Adding scatter.
#[inline(always)]
pub fn adding_scatter(
    caller: Caller,
    nx: usize,
    ny: usize,
    records: &[u8],
    mass: &mut [u64],
    px: &mut [i64],
    py: &mut [i64],
) -> u64 {
    answer(added(caller.limits(), nx, ny, records, mass, px, py))
}

/// Gathers for a set of checked length from grids of checked lengths.
#[inline(never)]
fn gather_set(nx: usize, ny: usize, records: &mut [u8], ux: &[i64], uy: &[i64]) -> Result<(), u64> {
    let mut room: Room = [MaybeUninit::uninit(); MOST];
    let particles = unpack(nx, ny, records, &mut room)?;
    for (k, (&x, &y)) in ux.iter().zip(uy).enumerate() {
        if !is_slow(x) || !is_slow(y) {
            return Err(refused(12, k));
        }
    }
    let mut to: Room = [MaybeUninit::uninit(); MOST];
    gather_all(particles, nx, ny, &table(), ux, uy, &mut to)?;
    // SAFETY: the gather has written as many.
    pack(unsafe { to[..particles.len()].assume_init_ref() }, records);
    Ok(())
}

#[inline(always)]
fn gathered(
    limits: Limits,
    nx: usize,
    ny: usize,
    records: &mut [u8],
    ux: &[i64],
    uy: &[i64],
) -> Result<(), u64> {
    check_given(limits, nx, ny, records.len(), [ux.len(), uy.len()])?;
    gather_set(nx, ny, records, ux, uy)
}

/// Gather.
#[inline(always)]
pub fn gather(
    caller: Caller,
    nx: usize,
    ny: usize,
    records: &mut [u8],
    ux: &[i64],
    uy: &[i64],
) -> u64 {
    answer(gathered(caller.limits(), nx, ny, records, ux, uy))
}
