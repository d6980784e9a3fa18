//! Bath files: an 11-byte header, then the records.

use crate::bits::{pack, unpack, Field};
use crate::caller::{Caller, Limits};
use crate::edge::Edge;
use crate::grid::{Settings, Size};
use crate::limits::{HEADER_LENGTH, MAX_STEPS, RECORD_LENGTH};
use crate::particle::Particle;
use crate::particle_set::{check_count, pack_records, walk};
use crate::refusal::{require, Refusal, LENGTH, SPARE, STEPS};

/// The fields of the header in their order.
pub const LAYOUT: [Field; 11] = [
    Field::unsigned("Nx", 6),
    Field::unsigned("Ny", 6),
    Field::signed("gx", 14),
    Field::signed("gy", 14),
    Field::unsigned("count", 13),
    Field::unsigned("steps", 14),
    Field::unsigned("spare", 5),
    Field::unsigned("kind", 2),
    Field::unsigned("width", 2),
    Field::unsigned("drag", 8),
    Field::unsigned("last spare", LAST_SPARE),
];

/// Bits of the last spare field.
const LAST_SPARE: u32 = 4;

/// The header's values.
#[derive(Clone, Copy, Debug, PartialEq, Eq, Hash)]
pub struct Header {
    /// Grid size, gravity, edge and drag.
    pub settings: Settings,
    /// Number of records.
    pub count: i128,
    /// Steps wanted.
    pub steps: i128,
}

impl Header {
    /// The header with these values, in the order of their fields.
    pub fn of([nx, ny, gx, gy, count, steps, kind, width, drag]: [i128; 9]) -> Self {
        let settings = Settings::new(Size::new(nx, ny), gx, gy);
        Header {
            settings: settings.with_edge(Edge::new(kind, width)).with_drag(drag),
            count,
            steps,
        }
    }

    /// The values in the order of their fields.
    pub fn values(&self) -> [i128; 9] {
        let Settings {
            size: Size { nx, ny },
            gx,
            gy,
            edge: Edge { kind, width },
            drag,
        } = self.settings;
        [nx, ny, gx, gy, self.count, self.steps, kind, width, drag]
    }

    /// Refuses 2, 10, 18, 19, 3, 17 in this order.
    fn check(&self, limits: Limits) -> Result<(), Refusal> {
        self.settings.size.check(limits)?;
        self.settings.check_forcing()?;
        check_count(limits, self.count)?;
        require((0..=MAX_STEPS).contains(&self.steps), STEPS, 0)
    }

    /// The low bits of each field as 11 bytes, in range or not, with these nine spare bits: five
    /// behind the steps and four at the end.
    pub fn pack(&self, spare: i128) -> [u8; HEADER_LENGTH] {
        let [nx, ny, gx, gy, count, steps, kind, width, drag] = self.values();
        let first = spare >> LAST_SPARE;
        let fields = [
            nx, ny, gx, gy, count, steps, first, kind, width, drag, spare,
        ];
        let mut bytes = [0; HEADER_LENGTH];
        pack(&LAYOUT, &fields, &mut bytes);
        bytes
    }
}

/// A bath file of particles, in range or not.
pub fn pack_file(settings: Settings, steps: i128, particles: &[Particle]) -> Vec<u8> {
    let header = Header {
        settings,
        count: particles.len() as i128,
        steps,
    };
    let mut file = header.pack(0).to_vec();
    file.extend(pack_records(particles));
    file
}

/// The length of a file of so many records.
fn file_length(count: i128) -> usize {
    HEADER_LENGTH + RECORD_LENGTH * count as usize
}

/// The length of a file with this header.
pub(crate) fn told_length(header: &[u8; HEADER_LENGTH]) -> usize {
    let [_, _, _, _, count, ..] = unpack(&LAYOUT, header);
    file_length(count)
}

/// Reads a file: the header's values. Refused: 1 shorter than 11; 2; 10; 18; 3; 17; 16 for either
/// spare field; 1 length not 11 + 15·count; then the set.
pub fn read_file(file: &[u8]) -> Result<Header, Refusal> {
    read_file_for(Caller::Bench, file)
}

/// Reads a caller's file.
pub fn read_file_for(caller: Caller, file: &[u8]) -> Result<Header, Refusal> {
    require(file.len() >= HEADER_LENGTH, LENGTH, 0)?;
    let [nx, ny, gx, gy, count, steps, first, kind, width, drag, last] =
        unpack(&LAYOUT, &file[..HEADER_LENGTH]);
    let header = Header::of([nx, ny, gx, gy, count, steps, kind, width, drag]);
    header.check(caller.limits())?;
    require([first, last] == [0, 0], SPARE, 0)?;
    require(file.len() == file_length(count), LENGTH, 0)?;
    walk(header.settings.size, file, HEADER_LENGTH)?;
    Ok(header)
}

/// Writes a header into the buffer, spare bits zero. Refused, by the bench's limits whoever calls: 1
/// length not 11; 2; 10; 18; 19; 3; 17, and the buffer is as it was.
pub fn write_header(header: &Header, buffer: &mut [u8]) -> Result<(), Refusal> {
    require(buffer.len() == HEADER_LENGTH, LENGTH, 0)?;
    header.check(Caller::Bench.limits())?;
    buffer.copy_from_slice(&header.pack(0));
    Ok(())
}
