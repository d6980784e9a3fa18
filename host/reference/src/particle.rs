//! Particle records: 15 bytes that hold one particle.

use crate::bits::{pack, unpack, Field};
use crate::limits::{MAX_B, MAX_COORDINATE, MAX_MASS, MAX_VELOCITY, MIN_MASS, RECORD_LENGTH};
use crate::refusal::{require, within, Refusal, AFFINE, LENGTH, MASS, PLACE, VELOCITY};

/// The fields of a particle record in their order.
pub const LAYOUT: [Field; 11] = [
    Field::unsigned("identifier", 16),
    Field::unsigned("mass", 10),
    Field::unsigned("x", 12),
    Field::unsigned("y", 12),
    Field::signed("vx", 7),
    Field::signed("vy", 7),
    Field::signed("Bxx", 12),
    Field::signed("Bxy", 12),
    Field::signed("Byx", 12),
    Field::signed("Byy", 12),
    Field::unsigned("marks", 8),
];

/// One particle. Numbers out of range can be written down; the operations refuse them.
#[derive(Clone, Copy, Debug, PartialEq, Eq, Hash)]
pub struct Particle {
    /// Identifier.
    pub identifier: u16,
    /// Mass, 1 to 1023.
    pub mass: i128,
    /// Place on the x axis.
    pub x: i128,
    /// Place on the y axis.
    pub y: i128,
    /// Velocity on the x axis, −63 to 63.
    pub vx: i128,
    /// Velocity on the y axis, −63 to 63.
    pub vy: i128,
    /// B, velocity axis x, offset axis x; each entry −2047 to 2047.
    pub bxx: i128,
    /// B, velocity axis x, offset axis y.
    pub bxy: i128,
    /// B, velocity axis y, offset axis x.
    pub byx: i128,
    /// B, velocity axis y, offset axis y.
    pub byy: i128,
    /// Count of marks.
    pub marks: u8,
}

impl Particle {
    /// A particle at rest with B zero and no marks.
    pub fn at_rest(identifier: u16, mass: i128, x: i128, y: i128) -> Self {
        Particle {
            identifier,
            mass,
            x,
            y,
            vx: 0,
            vy: 0,
            bxx: 0,
            bxy: 0,
            byx: 0,
            byy: 0,
            marks: 0,
        }
    }

    /// The same particle with this velocity.
    pub fn moving(self, vx: i128, vy: i128) -> Self {
        Particle { vx, vy, ..self }
    }

    /// The same particle with this B, as Bxx, Bxy, Byx, Byy.
    pub fn with_b(self, [bxx, bxy, byx, byy]: [i128; 4]) -> Self {
        Particle {
            bxx,
            bxy,
            byx,
            byy,
            ..self
        }
    }

    /// The same particle with so many marks.
    pub fn with_marks(self, marks: u8) -> Self {
        Particle { marks, ..self }
    }

    /// The entries of B as Bxx, Bxy, Byx, Byy.
    pub fn b(&self) -> [i128; 4] {
        [self.bxx, self.bxy, self.byx, self.byy]
    }

    /// The fields in the record's order.
    pub fn fields(&self) -> [i128; 11] {
        let [bxx, bxy, byx, byy] = self.b();
        let (identifier, marks) = (self.identifier.into(), self.marks.into());
        let Particle {
            mass, x, y, vx, vy, ..
        } = *self;
        [identifier, mass, x, y, vx, vy, bxx, bxy, byx, byy, marks]
    }

    /// The particle that 15 bytes hold, in range or not.
    pub fn unpack(record: &[u8; RECORD_LENGTH]) -> Self {
        let [identifier, mass, x, y, vx, vy, bxx, bxy, byx, byy, marks] = unpack(&LAYOUT, record);
        Particle {
            identifier: identifier as u16,
            mass,
            x,
            y,
            vx,
            vy,
            bxx,
            bxy,
            byx,
            byy,
            marks: marks as u8,
        }
    }

    /// The low bits of each field as 15 bytes, in range or not.
    pub fn pack(&self) -> [u8; RECORD_LENGTH] {
        let mut record = [0; RECORD_LENGTH];
        pack(&LAYOUT, &self.fields(), &mut record);
        record
    }

    /// Refuses 4, 5 and 6 in this order.
    fn check_state(&self) -> Result<(), Refusal> {
        require((MIN_MASS..=MAX_MASS).contains(&self.mass), MASS, 0)?;
        let velocity = [self.vx, self.vy];
        require(
            velocity.iter().all(|&v| within(v, MAX_VELOCITY)),
            VELOCITY,
            0,
        )?;
        require(self.b().iter().all(|&b| within(b, MAX_B)), AFFINE, 0)
    }
}

/// The bytes as a whole record, or 1.
fn whole_record(bytes: &[u8]) -> Result<[u8; RECORD_LENGTH], Refusal> {
    bytes.try_into().map_err(|_| Refusal::at(LENGTH, 0))
}

/// Reads a record. Refused: 1, 4, 5, 6.
pub fn read_record(bytes: &[u8]) -> Result<Particle, Refusal> {
    let particle = Particle::unpack(&whole_record(bytes)?);
    particle.check_state()?;
    Ok(particle)
}

/// Writes a record into the buffer. Refused: 1, 4, 5, 6, 7, and the buffer is as it was.
pub fn write_record(particle: &Particle, buffer: &mut [u8]) -> Result<(), Refusal> {
    whole_record(buffer)?;
    particle.check_state()?;
    let held = |coordinate: i128| (0..=MAX_COORDINATE).contains(&coordinate);
    require(held(particle.x) && held(particle.y), PLACE, 0)?;
    buffer.copy_from_slice(&particle.pack());
    Ok(())
}
