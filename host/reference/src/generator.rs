//! Seeded numbers (SplitMix64) and particles, the same on every machine.

use crate::edge::Edge;
use crate::grid::Size;
use crate::limits::{MAX_B, MAX_MASS, MAX_TOTAL_MASS, MAX_VELOCITY, MIN_PLACE, SPACING};
use crate::limits::{MAX_PRESENT_MOMENTUM, RECORD_LENGTH};
use crate::particle::Particle;

/// A stream of numbers that its seed decides.
#[derive(Clone, Debug)]
pub struct Generator {
    state: u64,
}

impl Generator {
    /// The stream of this seed.
    pub fn new(seed: u64) -> Self {
        Generator { state: seed }
    }

    /// The next 64 bits.
    pub fn bits(&mut self) -> u64 {
        self.state = self.state.wrapping_add(0x9E37_79B9_7F4A_7C15);
        let mixed = (self.state ^ self.state >> 30).wrapping_mul(0xBF58_476D_1CE4_E5B9);
        let mixed = (mixed ^ mixed >> 27).wrapping_mul(0x94D0_49BB_1331_11EB);
        mixed ^ mixed >> 31
    }

    /// A number from `low` to `high`, both included.
    pub fn between(&mut self, low: i128, high: i128) -> i128 {
        assert!(low <= high);
        low + i128::from(self.bits()).rem_euclid(high - low + 1)
    }

    /// True once in `times` on average.
    pub fn once_in(&mut self, times: i128) -> bool {
        self.between(1, times) == 1
    }

    /// One of the numbers.
    pub fn one_of(&mut self, numbers: &[i128]) -> i128 {
        numbers[self.between(0, numbers.len() as i128 - 1) as usize]
    }

    /// A size that is accepted.
    pub fn size(&mut self) -> Size {
        Size::new(self.between(4, 48), self.between(4, 48))
    }

    /// An edge that is accepted.
    pub fn edge(&mut self) -> Edge {
        Edge::ALL[self.between(0, Edge::ALL.len() as i128 - 1) as usize]
    }

    /// Marks, ends included.
    pub fn marks(&mut self) -> u8 {
        let marks = self.between(0, 255);
        self.one_of(&[0, 255, marks, marks, marks, marks]) as u8
    }

    /// At most this many particles of an accepted set, velocities and B up to the given sizes.
    pub fn particles(&mut self, size: Size, count: usize, v: i128, b: i128) -> Vec<Particle> {
        assert!(v <= MAX_VELOCITY && b <= MAX_B);
        let heaviest = (MAX_TOTAL_MASS / count.max(1) as i128).min(MAX_MASS);
        let mut identifier = self.between(0, 9);
        let mut particles = Vec::new();
        while particles.len() < count && identifier <= u16::MAX.into() {
            let x = self.between(MIN_PLACE, SPACING * (size.nx - 1) - 33);
            let y = self.between(MIN_PLACE, SPACING * (size.ny - 1) - 33);
            let particle = Particle::at_rest(identifier as u16, self.between(1, heaviest), x, y)
                .moving(self.between(-v, v), self.between(-v, v))
                .with_b(std::array::from_fn(|_| self.between(-b, b)))
                .with_marks(self.marks());
            particles.push(particle);
            identifier += self.between(1, 15);
        }
        particles
    }

    /// The records dealt out to this many parts, each in the set's order.
    pub fn parts(&mut self, records: &[u8], count: usize) -> Vec<Vec<u8>> {
        let mut parts = vec![Vec::new(); count];
        for record in records.chunks(RECORD_LENGTH) {
            parts[self.between(0, count as i128 - 1) as usize].extend(record);
        }
        parts
    }

    /// Mass, at most this one, and momenta of a node that the adding scatter takes, ends included.
    pub fn present_node(&mut self, heaviest: i128) -> (u64, i64, i64) {
        let mass = self.between(0, heaviest);
        let mass = self.one_of(&[0, mass, mass, heaviest]);
        let most = MAX_PRESENT_MOMENTUM * mass;
        let mut momentum = || {
            let momentum = self.between(-most, most);
            self.one_of(&[-most, momentum, momentum, most]) as i64
        };
        (mass as u64, momentum(), momentum())
    }
}

#[cfg(test)]
mod tests {
    use super::Generator;

    #[test]
    fn first_numbers_of_seed_zero() {
        let mut generator = Generator::new(0);
        assert_eq!(generator.bits(), 0xE220_A839_7B1D_CDAF);
        assert_eq!(generator.bits(), 0x6E78_9E6A_A1B9_65F4);
    }
}
