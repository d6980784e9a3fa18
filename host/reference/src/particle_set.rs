//! Particle sets: records one after another, and their totals.

use crate::caller::{Caller, Limits};
use crate::grid::{check_node_buffers, Size};
use crate::limits::{D, MAX_SET_LENGTH, MAX_TOTAL_MASS, RECORD_LENGTH};
use crate::particle::{read_record, Particle};
use crate::refusal::{require, Refusal, COUNT, IDENTIFIER, LENGTH, PLACE, TOTAL_MASS};

/// Refuses 1 where the length is not a multiple of 15 or above 61,440.
fn check_length(records: &[u8]) -> Result<(), Refusal> {
    let whole = records.len().is_multiple_of(RECORD_LENGTH);
    require(whole && records.len() <= MAX_SET_LENGTH, LENGTH, 0)
}

/// Refuses 3.
pub(crate) fn check_count(limits: Limits, count: i128) -> Result<(), Refusal> {
    require((0..=limits.records).contains(&count), COUNT, 0)
}

/// Refuses, for a set given directly: 2; 1, also for node buffers of these lengths; 3.
pub(crate) fn check_given(
    limits: Limits,
    size: Size,
    records: &[u8],
    buffers: &[usize],
) -> Result<(), Refusal> {
    size.check(limits)?;
    check_length(records)?;
    check_node_buffers(size, buffers)?;
    check_count(limits, (records.len() / RECORD_LENGTH) as i128)
}

/// The walk over the records from byte `start` on: the particles, or 4, 5, 6, 7, 8, 9 for the
/// lowest record that is refused.
pub(crate) fn walk(size: Size, bytes: &[u8], start: usize) -> Result<Vec<Particle>, Refusal> {
    let mut particles: Vec<Particle> = Vec::new();
    let mut mass = 0;
    for (place, record) in bytes[start..].chunks(RECORD_LENGTH).enumerate() {
        let particle = read_record(record).map_err(|refusal| Refusal::at(refusal.number, place))?;
        require(size.holds(particle.x, particle.y), PLACE, place)?;
        let rises = particles
            .last()
            .is_none_or(|before| particle.identifier > before.identifier);
        require(rises, IDENTIFIER, place)?;
        mass += particle.mass;
        require(mass <= MAX_TOTAL_MASS, TOTAL_MASS, place)?;
        particles.push(particle);
    }
    Ok(particles)
}

/// The particles of a set. Refused as check a set is.
pub fn particles(size: Size, records: &[u8]) -> Result<Vec<Particle>, Refusal> {
    particles_for(Caller::Bench, size, records)
}

/// The particles of a caller's set.
fn particles_for(caller: Caller, size: Size, records: &[u8]) -> Result<Vec<Particle>, Refusal> {
    check_given(caller.limits(), size, records, &[])?;
    walk(size, records, 0)
}

/// The records of particles, in range or not.
pub fn pack_records(particles: &[Particle]) -> Vec<u8> {
    particles.iter().flat_map(Particle::pack).collect()
}

/// Checks a set: the number of its records. Refused: 2, 1, 3, then for each record 4 to 9.
pub fn check_set(size: Size, records: &[u8]) -> Result<usize, Refusal> {
    check_set_for(Caller::Bench, size, records)
}

/// Checks a caller's set.
pub fn check_set_for(caller: Caller, size: Size, records: &[u8]) -> Result<usize, Refusal> {
    Ok(particles_for(caller, size, records)?.len())
}

/// The sums over a set.
#[derive(Clone, Copy, Debug, Default, PartialEq, Eq, Hash)]
pub struct Totals {
    /// Sum of m.
    pub mass: i128,
    /// Sum of m·vx.
    pub px: i128,
    /// Sum of m·vy.
    pub py: i128,
    /// Angular momentum about node (0, 0), affine part included; document 01's spin.
    pub angular_momentum: i128,
    /// Sum of m·(1024·(vx² + vy²) + Bxx² + Bxy² + Byx² + Byy²), document 02's motion.
    pub motion: i128,
    /// Sum of marks.
    pub marks: i128,
}

impl Totals {
    /// The sums over particles.
    pub fn of(particles: &[Particle]) -> Self {
        let sum = |share: fn(&Particle) -> i128| -> i128 { particles.iter().map(share).sum() };
        Totals {
            mass: sum(|p| p.mass),
            px: sum(|p| p.mass * p.vx),
            py: sum(|p| p.mass * p.vy),
            angular_momentum: sum(|p| p.mass * (p.x * p.vy - p.y * p.vx + p.byx - p.bxy)),
            motion: sum(|p| {
                let straight = p.vx.pow(2) + p.vy.pow(2);
                let turning = p.bxx.pow(2) + p.bxy.pow(2) + p.byx.pow(2) + p.byy.pow(2);
                p.mass * (D * straight + turning)
            }),
            marks: sum(|p| p.marks.into()),
        }
    }

    /// The sums in the order in which they are handed out and printed.
    pub fn values(&self) -> [i128; 6] {
        let Totals {
            mass,
            px,
            py,
            angular_momentum,
            motion,
            marks,
        } = *self;
        [mass, px, py, angular_momentum, motion, marks]
    }
}

/// Totals of a set. Refused as check a set is.
pub fn totals(size: Size, records: &[u8]) -> Result<Totals, Refusal> {
    totals_for(Caller::Bench, size, records)
}

/// Totals of a caller's set.
pub fn totals_for(caller: Caller, size: Size, records: &[u8]) -> Result<Totals, Refusal> {
    Ok(Totals::of(&particles_for(caller, size, records)?))
}

#[cfg(test)]
mod tests {
    use super::Totals;
    use crate::limits::{D, SPACING, WEIGHT_TOTAL};
    use crate::particle::Particle;
    use crate::spline::axis_weight;

    /// Motion is D times the sum, over each particle and node, of m·w/2^26 times the squared
    /// velocity that the particle carries to the node.
    #[test]
    fn motion_is_carried_to_the_nodes() {
        let particles = [
            Particle::at_rest(1, 3, 96, 95)
                .moving(-2, 4)
                .with_b([10, 20, 30, 40]),
            Particle::at_rest(2, 5, 351, 32)
                .moving(63, -61)
                .with_b([9, -8, 7, -6]),
            Particle::at_rest(4, 1023, 200, 223)
                .moving(0, 0)
                .with_b([0, -2047, 2046, 0]),
            Particle::at_rest(9, 1, 131, 160)
                .moving(-63, 1)
                .with_b([2047, 5, -3, -2000]),
        ];
        for k in 0..=particles.len() {
            let mut carried = 0;
            for p in &particles[..k] {
                for (i, j) in (0..5).flat_map(|j| (0..7).map(move |i| (i, j))) {
                    let (dx, dy) = (SPACING * i - p.x, SPACING * j - p.y);
                    let vx = D * p.vx + p.bxx * dx + p.bxy * dy;
                    let vy = D * p.vy + p.byx * dx + p.byy * dy;
                    let weight = axis_weight(p.x, i) * axis_weight(p.y, j);
                    carried += p.mass * weight * (vx.pow(2) + vy.pow(2));
                }
            }
            let motion = Totals::of(&particles[..k]).motion;
            assert_eq!(WEIGHT_TOTAL * D * motion, carried);
        }
    }
}
