//! A particle record: 15 bytes as two words that share a byte, the first with identifier, mass, place and
//! velocity, the second with B and marks.

use crate::refused;

/// Length of a particle record in bytes.
pub const RECORD_LENGTH: usize = 15;

/// The numbers of a particle that a step works on.
#[derive(Clone, Copy)]
pub struct Particle {
    pub mass: i32,
    pub x: i32,
    pub y: i32,
    pub vx: i32,
    pub vy: i32,
    pub bxx: i32,
    pub bxy: i32,
    pub byx: i32,
    pub byy: i32,
}

/// A particle with its identifier and marks, which no step changes or looks at.
#[derive(Clone, Copy)]
pub struct Record {
    pub identifier: u16,
    pub particle: Particle,
    pub marks: u8,
}

/// The signed field of a word: `width` bits, of which the last is at bit `low`.
#[inline(always)]
fn signed(word: u64, low: u32, width: u32) -> i32 {
    ((word << (64 - low - width)) as i64 >> (64 - width)) as i32
}

impl Record {
    /// What a record holds, valid or not.
    #[inline(always)]
    pub fn unpack(record: &[u8; RECORD_LENGTH]) -> Self {
        let [first, second] = [record.first_chunk(), record.last_chunk()]
            .map(|word| u64::from_be_bytes(*word.expect("8 bytes of 15")));
        let particle = Particle {
            mass: (first >> 38 & 1023) as i32,
            x: (first >> 26 & 4095) as i32,
            y: (first >> 14 & 4095) as i32,
            vx: signed(first, 7, 7),
            vy: signed(first, 0, 7),
            bxx: signed(second, 44, 12),
            bxy: signed(second, 32, 12),
            byx: signed(second, 20, 12),
            byy: signed(second, 8, 12),
        };
        Record {
            identifier: (first >> 48) as u16,
            particle,
            marks: second as u8,
        }
    }

    /// Writes the record of a particle whose numbers its fields hold.
    #[inline(always)]
    pub fn pack(&self, record: &mut [u8; RECORD_LENGTH]) {
        let [state, b] = self.particle.words();
        let first = u64::from(self.identifier) << 48 | state;
        let second = b << 8 | u64::from(self.marks);
        record[7..].copy_from_slice(&second.to_be_bytes());
        record[..8].copy_from_slice(&first.to_be_bytes());
    }
}

impl Particle {
    /// Mass, place and velocity, and B, as words of 48 bits.
    #[inline(always)]
    fn words(&self) -> [u64; 2] {
        let state = (self.mass as u64) << 38
            | (self.x as u64) << 26
            | (self.y as u64) << 14
            | (self.vx as u64 & 127) << 7
            | self.vy as u64 & 127;
        let b = (self.bxx as u64 & 4095) << 36
            | (self.bxy as u64 & 4095) << 24
            | (self.byx as u64 & 4095) << 12
            | self.byy as u64 & 4095;
        [state, b]
    }

    /// Writes numbers that its fields hold into a record, and leaves identifier and marks there.
    #[inline(always)]
    pub fn pack(&self, record: &mut [u8; RECORD_LENGTH]) {
        let [state, b] = self.words();
        record[6..14].copy_from_slice(&b.to_be_bytes());
        record[2..10].copy_from_slice(&(state << 16 | b >> 32).to_be_bytes());
    }

    /// What a record by itself is refused for.
    #[inline(always)]
    pub fn check(&self, place: usize) -> Result<(), u64> {
        if self.mass == 0 {
            return Err(refused(4, place));
        }
        if self.vx == -64 || self.vy == -64 {
            return Err(refused(5, place));
        }
        if self.bxx == -2048 || self.bxy == -2048 || self.byx == -2048 || self.byy == -2048 {
            return Err(refused(6, place));
        }
        Ok(())
    }
}

/// Read a record: eleven values.
pub fn read_record(bytes: &[u8], values: &mut [i64; 11]) -> u64 {
    let Ok(record) = bytes.try_into() else {
        return refused(1, 0);
    };
    let Record {
        identifier,
        particle: p,
        marks,
    } = Record::unpack(record);
    if let Err(refusal) = p.check(0) {
        return refusal;
    }
    *values = [
        identifier.into(),
        p.mass.into(),
        p.x.into(),
        p.y.into(),
        p.vx.into(),
        p.vy.into(),
        p.bxx.into(),
        p.bxy.into(),
        p.byx.into(),
        p.byy.into(),
        marks.into(),
    ];
    0
}

/// Write a record.
#[allow(clippy::too_many_arguments)]
pub fn write_record(
    identifier: u16,
    mass: u64,
    x: u64,
    y: u64,
    vx: i64,
    vy: i64,
    bxx: i64,
    bxy: i64,
    byx: i64,
    byy: i64,
    marks: u8,
    bytes: &mut [u8],
) -> u64 {
    let Ok(record) = <&mut [u8; RECORD_LENGTH]>::try_from(bytes) else {
        return refused(1, 0);
    };
    if !(1..=1023).contains(&mass) {
        return refused(4, 0);
    }
    if vx.unsigned_abs() > 63 || vy.unsigned_abs() > 63 {
        return refused(5, 0);
    }
    if [bxx, bxy, byx, byy].iter().any(|b| b.unsigned_abs() > 2047) {
        return refused(6, 0);
    }
    if x > 4095 || y > 4095 {
        return refused(7, 0);
    }
    let particle = Particle {
        mass: mass as i32,
        x: x as i32,
        y: y as i32,
        vx: vx as i32,
        vy: vy as i32,
        bxx: bxx as i32,
        bxy: bxy as i32,
        byx: byx as i32,
        byy: byy as i32,
    };
    Record {
        identifier,
        particle,
        marks,
    }
    .pack(record);
    0
}
