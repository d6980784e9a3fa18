//! What is kept from line to line: who calls, the bytes that hold records or a file, and the store.

use reference::limits::{MAX_SET_LENGTH, RECORD_LENGTH};
use reference::limits::{NAME_LENGTH, STORE_LENGTH, STORE_PLACE_LENGTH};
use reference::{read_record, Caller, Particle};

use crate::output::{bytes, numbers};

/// The caller, the bytes and the store, and how much of each a call is lent.
pub struct Kept {
    pub caller: Caller,
    room: Vec<u8>,
    end: usize,
    store: Vec<u8>,
    lent: usize,
}

impl Kept {
    /// Room for one record more than a set may have, and for one byte more than a store has.
    pub fn new() -> Self {
        Kept {
            caller: Caller::Bench,
            room: vec![0; MAX_SET_LENGTH + RECORD_LENGTH],
            end: 0,
            store: vec![0; STORE_LENGTH + 1],
            lent: STORE_LENGTH,
        }
    }

    pub fn lent(&mut self) -> &mut [u8] {
        &mut self.room[..self.end]
    }

    /// The store, and the bytes beside it.
    pub fn lent_store(&mut self) -> (&mut [u8], &mut [u8]) {
        (&mut self.store[..self.lent], &mut self.room[..self.end])
    }

    /// Records alike from a place on, with identifiers and marks that rise from the first one's.
    pub fn fill(&mut self, from: usize, end: usize, fields: &[i128]) {
        let mut record = particle(fields);
        for part in self.room[from..].chunks_mut(RECORD_LENGTH) {
            part.copy_from_slice(&record.pack()[..part.len()]);
            record.identifier = record.identifier.wrapping_add(1);
            record.marks = record.marks.wrapping_add(1);
        }
        self.end = end;
    }

    /// Another byte of the store, of which so many are lent.
    pub fn set(&mut self, lent: usize, at: usize, byte: u8) {
        self.store[at] = byte;
        self.lent = lent;
    }

    /// Each record's fields, or its bytes if it cannot be read.
    pub fn shown(&self) -> String {
        let records = self.room[..self.end].chunks(RECORD_LENGTH);
        let shown = |record| match read_record(record) {
            Ok(particle) => numbers('r', &particle.fields()),
            Err(_) => bytes(record),
        };
        records.map(shown).collect()
    }

    /// The names in the store, as its places hold them.
    pub fn names(&self) -> String {
        let places = self.store.chunks_exact(STORE_PLACE_LENGTH);
        let names: Vec<u8> = places
            .flat_map(|place| &place[..NAME_LENGTH])
            .copied()
            .collect();
        numbers('s', &names)
    }
}

pub fn particle(fields: &[i128]) -> Particle {
    let &[identifier, mass, x, y, vx, vy, bxx, bxy, byx, byy, marks] = fields else {
        panic!("not eleven fields: {fields:?}");
    };
    Particle::at_rest(identifier as u16, mass, x, y)
        .moving(vx, vy)
        .with_b([bxx, bxy, byx, byy])
        .with_marks(marks as u8)
}
