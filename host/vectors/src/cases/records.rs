//! Read a record, write a record, weights.

use reference::limits::RECORD_LENGTH;
use reference::Particle;

use super::{bytes, case, lone, marked, printed};
use crate::{Case, Operation};

pub fn cases() -> Vec<Case> {
    [read_cases(), write_cases(), weight_cases()].concat()
}

fn smallest() -> Particle {
    Particle::at_rest(0, 1, 0, 0)
        .moving(-63, -63)
        .with_b([-2047; 4])
}

fn largest() -> Particle {
    Particle::at_rest(u16::MAX, 1023, 4095, 4095)
        .moving(63, 63)
        .with_b([2047; 4])
        .with_marks(u8::MAX)
}

/// Fields that differ from each other, so that an exchange shows.
fn distinct() -> Particle {
    Particle::at_rest(258, 5, 77, 1033)
        .moving(-6, 7)
        .with_b([-800, 901, 1002, -1103])
        .with_marks(147)
}

/// B with one entry.
fn entry(index: usize, b: i128) -> [i128; 4] {
    let mut entries = [0; 4];
    entries[index] = b;
    entries
}

const ENTRIES: [&str; 4] = ["Bxx", "Bxy", "Byx", "Byy"];

/// Marks at their ends, next to them, and half way, of [`distinct`] and of records with every other bit 0
/// and 1 but for a mass.
fn marks() -> Vec<(String, Particle)> {
    let zeros = Particle::at_rest(0, 1, 0, 0);
    let ones = Particle::at_rest(u16::MAX, 1023, 4095, 4095)
        .moving(-1, -1)
        .with_b([-1; 4]);
    let mut particles = Vec::new();
    for marks in [0, 1, 127, 128, 254, 255] {
        for (name, other) in [("", distinct()), ("-zeros", zeros), ("-ones", ones)] {
            let name = format!("marks-{marks}{name}");
            particles.push((name, other.with_marks(marks)));
        }
    }
    particles
}

fn read_cases() -> Vec<Case> {
    let read = |name: &str, particle: Particle, number: u32| {
        let stated = (number > 0).then_some((number, 0));
        let name = format!("read-record/{name}");
        case(name, Operation::ReadRecord, bytes(particle.pack()), stated)
    };
    let mut cases = Vec::new();
    for length in [
        0,
        1,
        RECORD_LENGTH - 1,
        RECORD_LENGTH + 1,
        2 * RECORD_LENGTH,
    ] {
        let name = format!("read-record/length-{length}");
        let buffers = bytes(vec![0; length]);
        cases.push(case(name, Operation::ReadRecord, buffers, Some((1, 0))));
    }
    let lone = |identifier| marked(lone(identifier));
    let zero = Particle { mass: 0, ..lone(0) };
    cases.extend([
        read("printed", printed(), 0),
        read("distinct-fields", distinct(), 0),
        read("smallest", smallest(), 0),
        read("largest", largest(), 0),
        read("mass-0", zero, 4),
        read("mass-1023", Particle { mass: 1023, ..zero }, 0),
        read("vx--64", lone(0).moving(-64, 0), 5),
        read("vy--64", lone(0).moving(0, -64), 5),
        read(
            "4-before-5-and-6",
            zero.moving(-64, -64).with_b([-2048; 4]),
            4,
        ),
        read("5-before-6", lone(0).moving(0, -64).with_b([-2048; 4]), 5),
    ]);
    for (index, name) in ENTRIES.iter().enumerate() {
        let b = lone(0).with_b(entry(index, -2048));
        cases.push(read(&format!("{name}--2048"), b, 6));
    }
    for (name, byte, stated) in [("all-00", 0x00, Some((4, 0))), ("all-FF", 0xFF, None)] {
        let name = format!("read-record/{name}");
        let buffers = bytes([byte; RECORD_LENGTH]);
        cases.push(case(name, Operation::ReadRecord, buffers, stated));
    }
    for (name, particle) in marks() {
        cases.push(read(&name, particle, 0));
    }
    cases
}

fn write_cases() -> Vec<Case> {
    let write = |name: &str, particle: Particle, number: u32| {
        let stated = (number > 0).then_some((number, 0));
        let operation = Operation::WriteRecord(particle);
        let name = format!("write-record/{name}");
        case(name, operation, bytes([0xA5; RECORD_LENGTH]), stated)
    };
    let lone = |identifier| marked(lone(identifier));
    let broken = Particle::at_rest(0, 0, 4096, 4096)
        .moving(64, 64)
        .with_b([2048; 4])
        .with_marks(93);
    let mut cases = vec![
        write("printed", printed(), 0),
        write("distinct-fields", distinct(), 0),
        write("smallest", smallest(), 0),
        write("largest", largest(), 0),
        write("4-before-the-rest", broken, 4),
        write("5-before-6-and-7", Particle { mass: 1, ..broken }, 5),
        write(
            "6-before-7",
            Particle {
                mass: 1,
                ..broken.moving(0, 0)
            },
            6,
        ),
        write("x-4096", Particle { x: 4096, ..lone(1) }, 7),
        write("y-4096", Particle { y: 4096, ..lone(1) }, 7),
        write(
            "x-65535",
            Particle {
                x: 65_535,
                ..lone(1)
            },
            7,
        ),
        write("x-4095", Particle { x: 4095, ..lone(1) }, 0),
        write("y-4095", Particle { y: 4095, ..lone(1) }, 0),
    ];
    for length in [0, RECORD_LENGTH - 1, RECORD_LENGTH + 1, 2 * RECORD_LENGTH] {
        let name = format!("write-record/length-{length}");
        let buffers = bytes(vec![0xA5; length]);
        let operation = Operation::WriteRecord(broken);
        cases.push(case(name, operation, buffers, Some((1, 0))));
    }
    for (mass, number) in [(0, 4), (1, 0), (1023, 0), (1024, 4), (65_535, 4)] {
        cases.push(write(
            &format!("mass-{mass}"),
            Particle { mass, ..lone(1) },
            number,
        ));
    }
    for v in [-128, -65, -64, -63, 63, 64, 127] {
        let number = if (-63..=63).contains(&v) { 0 } else { 5 };
        cases.push(write(&format!("vx-{v}"), lone(1).moving(v, 0), number));
        cases.push(write(&format!("vy-{v}"), lone(1).moving(0, v), number));
    }
    for b in [-32_768, -2049, -2048, -2047, 2047, 2048, 32_767] {
        let number = if (-2047..=2047).contains(&b) { 0 } else { 6 };
        for (index, name) in ENTRIES.iter().enumerate() {
            let particle = lone(1).with_b(entry(index, b));
            cases.push(write(&format!("{name}-{b}"), particle, number));
        }
    }
    for (name, particle) in marks() {
        cases.push(write(&name, particle, 0));
    }
    cases
}

fn weight_cases() -> Vec<Case> {
    let offsets = (-34..=33).chain([-128, 127]);
    offsets
        .map(|q| {
            let stated = (!(-32..=31).contains(&q)).then_some((7, 0));
            let name = format!("weights/q-{q}");
            case(name, Operation::Weights(q), bytes([]), stated)
        })
        .collect()
}
