//! A bath file: its header of 11 bytes, as two words that overlap, and its records.

use crate::caller::{Caller, Limits};
use crate::particle::RECORD_LENGTH;
use crate::set::{check_records, MOST};
use crate::settings::Settings;
use crate::{answer, refused};

/// Length of a header in bytes.
const HEADER_LENGTH: usize = 11;

/// Length of the longest file.
pub const MOST_LENGTH: usize = HEADER_LENGTH + RECORD_LENGTH * MOST;

const MOST_STEPS: usize = 10_000;

/// The spare bits of the second word, after the steps and at the end.
const SPARE: u64 = 0x1F_000F;

#[inline(always)]
fn check_values(
    limits: Limits,
    settings: &Settings,
    count: usize,
    steps: usize,
) -> Result<(), u64> {
    limits.check_size(settings.nx, settings.ny)?;
    settings.check_forces()?;
    limits.check_count(count)?;
    if steps > MOST_STEPS {
        return Err(refused(17, 0));
    }
    Ok(())
}

/// The words of a header.
fn words(header: &[u8; HEADER_LENGTH]) -> [u64; 2] {
    [header.first_chunk(), header.last_chunk()]
        .map(|word| u64::from_be_bytes(*word.expect("8 bytes of 11")))
}

/// The count in a header's second word.
fn count_in(second: u64) -> usize {
    (second >> 35 & 8191) as usize
}

/// The values of an accepted file.
#[inline(always)]
pub fn found(limits: Limits, bytes: &[u8]) -> Result<[i64; 9], u64> {
    let Some((header, records)) = bytes.split_first_chunk::<HEADER_LENGTH>() else {
        return Err(refused(1, 0));
    };
    let [first, second] = words(header);
    let settings = Settings {
        nx: (first >> 58) as usize,
        ny: (first >> 52 & 63) as usize,
        gx: (first << 12) as i64 >> 50,
        gy: (first << 26) as i64 >> 50,
        kind: (second >> 14 & 3) as usize,
        width: (second >> 12 & 3) as usize,
        drag: (second >> 4 & 255) as usize,
    };
    let (count, steps) = (count_in(second), (second >> 21 & 16_383) as usize);
    check_values(limits, &settings, count, steps)?;
    if second & SPARE != 0 {
        return Err(refused(16, 0));
    }
    if records.len() != RECORD_LENGTH * count {
        return Err(refused(1, 0));
    }
    let Settings {
        nx,
        ny,
        gx,
        gy,
        kind,
        width,
        drag,
    } = settings;
    check_records(nx, ny, records)?;
    let [nx, ny, count, steps, kind, width, drag] =
        [nx, ny, count, steps, kind, width, drag].map(|n| n as i64);
    Ok([nx, ny, gx, gy, count, steps, kind, width, drag])
}

/// The length of the file at the front of these bytes, if it is accepted for the bench.
pub fn front(bytes: &[u8; MOST_LENGTH]) -> Option<usize> {
    let [_, second] = words(bytes.first_chunk()?);
    let length = HEADER_LENGTH + RECORD_LENGTH * count_in(second);
    found(Caller::Bench.limits(), bytes.get(..length)?).ok()?;
    Some(length)
}

/// Read a file: nine values.
#[inline(always)]
pub fn read_file(caller: Caller, bytes: &[u8], values: &mut [i64; 9]) -> u64 {
    match found(caller.limits(), bytes) {
        Ok(header) => {
            *values = header;
            0
        }
        Err(refusal) => refusal,
    }
}

fn written(settings: &Settings, count: usize, steps: usize, bytes: &mut [u8]) -> Result<(), u64> {
    let Ok(header) = <&mut [u8; HEADER_LENGTH]>::try_from(bytes) else {
        return Err(refused(1, 0));
    };
    check_values(Caller::Bench.limits(), settings, count, steps)?;
    let first = (settings.nx as u64) << 58
        | (settings.ny as u64) << 52
        | (settings.gx as u64 & 16_383) << 38
        | (settings.gy as u64 & 16_383) << 24
        | (count as u64) << 11
        | steps as u64 >> 3;
    let second = (steps as u64) << 21
        | (settings.kind as u64) << 14
        | (settings.width as u64) << 12
        | (settings.drag as u64) << 4;
    header[3..].copy_from_slice(&second.to_be_bytes());
    header[..8].copy_from_slice(&first.to_be_bytes());
    Ok(())
}

/// Write a header.
#[allow(clippy::too_many_arguments)]
pub fn write_header(
    nx: usize,
    ny: usize,
    gx: i64,
    gy: i64,
    count: usize,
    steps: usize,
    kind: usize,
    width: usize,
    drag: usize,
    bytes: &mut [u8],
) -> u64 {
    let settings = Settings::new(nx, ny, gx, gy, kind, width, drag);
    answer(written(&settings, count, steps, bytes))
}
