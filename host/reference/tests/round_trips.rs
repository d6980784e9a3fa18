//! Records and headers read and write back bit for bit.

use reference::bath_file::LAYOUT as HEADER;
use reference::bits::{unpack, Field};
use reference::generator::Generator;
use reference::limits::{HEADER_LENGTH, RECORD_LENGTH};
use reference::particle::LAYOUT as RECORD;
use reference::{read_file, read_record, write_header, write_record};
use reference::{Edge, Header, Particle, Settings, Size};

#[test]
fn layouts_fill_their_bytes() {
    let bits = |layout: &[Field]| {
        layout
            .iter()
            .map(|field| field.bits as usize)
            .sum::<usize>()
    };
    assert_eq!(bits(&RECORD), 8 * RECORD_LENGTH);
    assert_eq!(bits(&HEADER), 8 * HEADER_LENGTH);
}

#[test]
fn records_from_bytes() {
    let mut generator = Generator::new(1);
    let mut accepted = 0;
    for _ in 0..20_000 {
        let record: [u8; RECORD_LENGTH] = std::array::from_fn(|_| generator.bits() as u8);
        let Ok(particle) = read_record(&record) else {
            continue;
        };
        let mut again = [0; RECORD_LENGTH];
        assert_eq!(write_record(&particle, &mut again), Ok(()));
        assert_eq!(again, record);
        accepted += 1;
    }
    assert!(accepted > 10_000);
}

#[test]
fn records_from_numbers() {
    let mut generator = Generator::new(2);
    for _ in 0..20_000 {
        let mut numbers = |low, high| generator.between(low, high);
        let particle = Particle::at_rest(
            numbers(0, 65_535) as u16,
            numbers(1, 1023),
            numbers(0, 4095),
            numbers(0, 4095),
        )
        .moving(numbers(-63, 63), numbers(-63, 63))
        .with_b(std::array::from_fn(|_| numbers(-2047, 2047)))
        .with_marks(numbers(0, 255) as u8);
        let mut record = [0; RECORD_LENGTH];
        assert_eq!(write_record(&particle, &mut record), Ok(()));
        assert_eq!(read_record(&record), Ok(particle));
    }
}

/// A record as one number of 120 bits, its fields cut off from the top.
#[test]
fn records_as_one_number() {
    let mut generator = Generator::new(3);
    for _ in 0..5_000 {
        let record: [u8; RECORD_LENGTH] = std::array::from_fn(|_| generator.bits() as u8);
        let whole = record
            .iter()
            .fold(0_u128, |n, &byte| n << 8 | u128::from(byte));
        let mut left = 8 * RECORD_LENGTH as u32;
        for (field, value) in RECORD.iter().zip(unpack(&RECORD, &record)) {
            left -= field.bits;
            let bits = (whole >> left & ((1 << field.bits) - 1)) as i128;
            let negative = field.signed && bits >> (field.bits - 1) == 1;
            assert_eq!(
                value,
                if negative {
                    bits - (1 << field.bits)
                } else {
                    bits
                }
            );
        }
    }
}

#[test]
fn headers() {
    let mut generator = Generator::new(4);
    for _ in 0..5_000 {
        let size = generator.size();
        let mut gravity = || generator.between(-4096, 4096);
        let settings = Settings::new(size, gravity(), gravity())
            .with_edge(generator.edge())
            .with_drag(generator.between(0, 255));
        let header = Header {
            settings,
            count: 0,
            steps: generator.between(0, 10_000),
        };
        assert_eq!(Header::of(header.values()), header);
        let mut file = [0xFF; HEADER_LENGTH];
        assert_eq!(write_header(&header, &mut file), Ok(()));
        assert_eq!(read_file(&file), Ok(header));
    }
}

#[test]
fn accepted_headers_from_bytes() {
    let mut generator = Generator::new(5);
    let mut accepted = 0;
    for _ in 0..200_000 {
        let mut file: [u8; HEADER_LENGTH] = std::array::from_fn(|_| generator.bits() as u8);
        file[5] = 0;
        file[6] &= 0x07;
        file[8] &= 0xE0;
        file[10] &= 0xF0;
        let Ok(header) = read_file(&file) else {
            continue;
        };
        let mut again = [0; HEADER_LENGTH];
        assert_eq!(write_header(&header, &mut again), Ok(()));
        assert_eq!(again, file);
        accepted += 1;
    }
    assert!(accepted > 1_000);
}

#[test]
fn printed_header() {
    let header = Header {
        settings: Settings::new(Size::new(4, 4), 0, 0),
        count: 1,
        steps: 1,
    };
    let bytes = [0x10, 0x40, 0, 0, 0, 0, 0x08, 0, 0x20, 0, 0];
    assert_eq!(header.pack(0), bytes);
}

/// Kind 2, width 3 and drag 200 behind the first nine bytes, then the last four spare bits; the first
/// five are the last of the ninth byte.
#[test]
fn bits_of_the_edge_and_drag() {
    let settings = Settings::new(Size::new(4, 5), 0, 0)
        .with_edge(Edge::slip(3))
        .with_drag(0b1100_1000);
    let header = Header {
        settings,
        count: 0,
        steps: 0,
    };
    let last = |spare: i128| header.pack(spare)[8..].to_vec();
    assert_eq!(last(0), [0, 0b1011_1100, 0b1000_0000]);
    assert_eq!(last(0b1_0001_1001), [0b10001, 0b1011_1100, 0b1000_1001]);
}
