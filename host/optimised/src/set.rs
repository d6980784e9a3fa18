//! A particle set: its records checked one after the other.

use std::mem::MaybeUninit;

use crate::caller::{Caller, Limits};
use crate::particle::{Particle, Record, RECORD_LENGTH};
use crate::refused;
use crate::update::check_lengths;

/// The largest number of records.
pub const MOST: usize = 4096;

/// Room for the largest set, not cleared. Functions with a large array are not inlined and cannot end
/// before they use it, so that their frame is made at the entry: elsewhere a compiler got it wrong
/// (`docs/DECISIONS.md`, "A compiler fault").
pub type Room = [MaybeUninit<Particle>; MOST];

/// The last place on an axis of n nodes.
#[inline(always)]
pub fn last(n: usize) -> i32 {
    (64 * (n - 1) - 33) as i32
}

/// Whether as many bytes are whole records, and not too many for any caller.
#[inline(always)]
fn check_length(bytes: usize) -> Result<(), u64> {
    if bytes.is_multiple_of(RECORD_LENGTH) && bytes <= MOST * RECORD_LENGTH {
        Ok(())
    } else {
        Err(refused(1, 0))
    }
}

/// Whether the size, the lengths of records and grids, and the number of records are valid.
#[inline(always)]
pub fn check_given<const N: usize>(
    limits: Limits,
    nx: usize,
    ny: usize,
    bytes: usize,
    grids: [usize; N],
) -> Result<(), u64> {
    limits.check_size(nx, ny)?;
    check_length(bytes)?;
    check_lengths(nx * ny, grids)?;
    limits.check_count(bytes / RECORD_LENGTH)
}

/// Checks every record and hands each to `found`.
#[inline(always)]
fn walk(
    nx: usize,
    ny: usize,
    records: &[u8],
    mut found: impl FnMut(usize, Record),
) -> Result<(), u64> {
    let (right, top) = (last(nx), last(ny));
    let mut least = 0;
    let mut mass = 0;
    for (k, record) in records.as_chunks::<RECORD_LENGTH>().0.iter().enumerate() {
        let record = Record::unpack(record);
        let p = record.particle;
        p.check(k)?;
        if p.x < 32 || p.x > right || p.y < 32 || p.y > top {
            return Err(refused(7, k));
        }
        if u32::from(record.identifier) < least {
            return Err(refused(8, k));
        }
        least = u32::from(record.identifier) + 1;
        mass += p.mass;
        if mass > 131_072 {
            return Err(refused(9, k));
        }
        found(k, record);
    }
    Ok(())
}

/// Checks every record. Apart from its callers, so that the loop has all registers.
#[inline(never)]
pub fn check_records(nx: usize, ny: usize, records: &[u8]) -> Result<(), u64> {
    walk(nx, ny, records, |_, _| ())
}

/// Checks every record and unpacks it.
pub fn unpack<'a>(
    nx: usize,
    ny: usize,
    records: &[u8],
    room: &'a mut Room,
) -> Result<&'a mut [Particle], u64> {
    walk(nx, ny, records, |k, record| {
        // SAFETY: a checked length has at most as many records as the room.
        unsafe { room.get_unchecked_mut(k) }.write(record.particle);
    })?;
    let count = records.len() / RECORD_LENGTH;
    // SAFETY: the walk has written as many.
    Ok(unsafe { room[..count].assume_init_mut() })
}

/// Packs every particle into its record, which keeps identifier and marks.
pub fn pack(particles: &[Particle], records: &mut [u8]) {
    for (p, record) in particles.iter().zip(records.as_chunks_mut().0) {
        p.pack(record);
    }
}

/// The number of records of an accepted set.
#[inline(always)]
fn checked(limits: Limits, nx: usize, ny: usize, records: &[u8]) -> Result<usize, u64> {
    check_given(limits, nx, ny, records.len(), [])?;
    check_records(nx, ny, records)?;
    Ok(records.len() / RECORD_LENGTH)
}

/// Check a set: the number of records.
#[inline(always)]
pub fn check_set(caller: Caller, nx: usize, ny: usize, records: &[u8], count: &mut u64) -> u64 {
    match checked(caller.limits(), nx, ny, records) {
        Ok(found) => {
            *count = found as u64;
            0
        }
        Err(refusal) => refusal,
    }
}

/// The sums over an accepted set.
#[inline(always)]
fn summed(limits: Limits, nx: usize, ny: usize, records: &[u8]) -> Result<[i64; 6], u64> {
    check_given(limits, nx, ny, records.len(), [])?;
    let [mut mass, mut px, mut py, mut spin, mut motion, mut marks] = [0; 6];
    walk(nx, ny, records, |_, record| {
        let p = record.particle;
        let m = i64::from(p.mass);
        let (x, y) = (p.x, p.y);
        let (vx, vy) = (p.vx, p.vy);
        let turning = p.bxx * p.bxx + p.bxy * p.bxy + p.byx * p.byx + p.byy * p.byy;
        mass += m;
        px += m * i64::from(vx);
        py += m * i64::from(vy);
        spin += m * i64::from(x * vy - y * vx + p.byx - p.bxy);
        motion += m * i64::from(1024 * (vx * vx + vy * vy) + turning);
        marks += i64::from(record.marks);
    })?;
    Ok([mass, px, py, spin, motion, marks])
}

/// Totals: six values.
#[inline(always)]
pub fn totals(caller: Caller, nx: usize, ny: usize, records: &[u8], values: &mut [i64; 6]) -> u64 {
    match summed(caller.limits(), nx, ny, records) {
        Ok(sums) => {
            *values = sums;
            0
        }
        Err(refusal) => refusal,
    }
}
