//! Read a file, write a header, the program.

use reference::limits::{HEADER_LENGTH, MAX_SET_LENGTH, RECORD_LENGTH};
use reference::particle_set::pack_records;
use reference::{Edge, Header, Particle, Settings, Size};

use super::{accepted_sets, broken, bytes, case, copies, differing_marks, edge_name, lone};
use super::{marked, marked_records, refused_sets, without_marks};
use super::{REFUSED_DRAGS, REFUSED_EDGES, REFUSED_SIZES, SMALL};
use crate::{Buffers, Case, Operation};

pub fn cases() -> Vec<Case> {
    [
        read_refusals(),
        read_cases(),
        header_cases(),
        program_cases(),
    ]
    .concat()
}

fn header(size: Size, count: i128, steps: i128) -> Header {
    let settings = Settings::new(size, 0, 0);
    Header {
        settings,
        count,
        steps,
    }
}

fn with_gravity(gx: i128, gy: i128) -> Header {
    let settings = Settings::new(SMALL, gx, gy);
    Header {
        settings,
        ..header(SMALL, 0, 0)
    }
}

fn with_edge(edge: Edge, drag: i128) -> Header {
    let settings = Settings::new(Size::new(4, 5), 3, -7);
    Header {
        settings: settings.with_edge(edge).with_drag(drag),
        ..header(SMALL, 0, 9)
    }
}

/// A header with spare bits, and records.
fn file(header: Header, spare: i128, records: &[u8]) -> Buffers {
    bytes([&header.pack(spare)[..], records].concat())
}

fn read(name: &str, file: Buffers, stated: Option<(u32, usize)>) -> Case {
    case(
        format!("read-file/{name}"),
        Operation::ReadFile,
        file,
        stated,
    )
}

/// Every refusal of read a file.
pub fn read_refusals() -> Vec<Case> {
    let one = marked(lone(1)).pack();
    let two = marked_records(&copies(2, lone(0)));
    let mut cases: Vec<Case> = [0, 1, 8, 9, 10]
        .map(|length| {
            read(
                &format!("length-{length}-alone"),
                bytes(vec![0; length]),
                Some((1, 0)),
            )
        })
        .into();
    for (name, size) in &REFUSED_SIZES[..5] {
        let mut broken = Header {
            settings: broken(*size),
            ..header(*size, 8191, 16_383)
        };
        broken.settings.gx = 8191;
        cases.push(read(name, file(broken, 511, &[]), Some((2, 0))));
    }
    for (gx, gy) in [(4097, 0), (-4097, 0), (0, 4097), (0, -4097), (-8192, 8191)] {
        let broken = Header {
            settings: with_gravity(gx, gy).settings.with_edge(Edge::new(0, 1)),
            ..header(SMALL, 4097, 0)
        };
        cases.push(read(
            &format!("gx-{gx}-gy-{gy}"),
            file(broken, 1, &[]),
            Some((10, 0)),
        ));
    }
    cases.extend(read_refused_edges());
    let count = header(SMALL, 4097, 10_001);
    let steps = header(SMALL, 2, 10_001);
    cases.extend([
        read("count-4097", file(count, 1, &[]), Some((3, 0))),
        read(
            "count-4097-held",
            file(
                header(SMALL, 4097, 1),
                0,
                &marked_records(&copies(4097, lone(0))),
            ),
            Some((3, 0)),
        ),
        read(
            "count-8191",
            file(header(SMALL, 8191, 1), 0, &[]),
            Some((3, 0)),
        ),
        read("steps-10001", file(steps, 1, &one), Some((17, 0))),
        read(
            "steps-16383",
            file(header(SMALL, 0, 16_383), 0, &[]),
            Some((17, 0)),
        ),
    ]);
    for spare in [1, 2, 4, 8, 15, 16, 32, 64, 128, 256, 511] {
        let name = format!("spare-{spare}");
        cases.push(read(
            &name,
            file(header(SMALL, 2, 1), spare, &one),
            Some((16, 0)),
        ));
    }
    let massless = marked(Particle { mass: 0, ..lone(0) }).pack();
    cases.extend([
        read(
            "no-record-of-2",
            file(header(SMALL, 2, 1), 0, &[]),
            Some((1, 0)),
        ),
        read(
            "one-record-of-2",
            file(header(SMALL, 2, 1), 0, &massless),
            Some((1, 0)),
        ),
        read(
            "one-byte-short",
            file(header(SMALL, 2, 1), 0, &two[..two.len() - 1]),
            Some((1, 0)),
        ),
        read(
            "one-byte-long",
            file(header(SMALL, 1, 1), 0, &two[..RECORD_LENGTH + 1]),
            Some((1, 0)),
        ),
        read(
            "two-records-of-1",
            file(header(SMALL, 1, 1), 0, &two),
            Some((1, 0)),
        ),
        read(
            "one-record-of-0",
            file(header(SMALL, 0, 1), 0, &one),
            Some((1, 0)),
        ),
    ]);
    for count in [1, 2, 15, 30] {
        let records = marked_records(&copies(count, lone(0)));
        let name = format!("records-{count}-without-marks");
        let file = file(header(SMALL, count.into(), 1), 0, &without_marks(&records));
        cases.push(read(&name, file, Some((1, 0))));
    }
    for (name, records, stated) in refused_sets() {
        // Whole records only, and no more than the count can say.
        if stated.0 == 1 {
            continue;
        }
        let count = (records.len() / RECORD_LENGTH) as i128;
        cases.push(read(
            name,
            file(header(SMALL, count, 1), 0, &records),
            Some(stated),
        ));
    }
    cases
}

/// What the four bits of kind and width can hold beside edges, alone and before all that comes later.
fn read_refused_edges() -> Vec<Case> {
    let mut cases = Vec::new();
    for (kind, width) in (0..4).flat_map(|kind| (0..4).map(move |width| (kind, width))) {
        let edge = Edge::new(kind, width);
        if Edge::ALL.contains(&edge) {
            continue;
        }
        let alone = with_edge(edge, 0);
        let broken = Header {
            count: 4097,
            steps: 10_001,
            ..with_edge(edge, 255)
        };
        let name = format!("kind-{kind}-width-{width}");
        cases.push(read(&name, file(alone, 0, &[]), Some((18, 0))));
        let name = format!("{name}-before-the-rest");
        cases.push(read(&name, file(broken, 511, &[]), Some((18, 0))));
    }
    cases
}

fn read_cases() -> Vec<Case> {
    let mut cases: Vec<Case> = accepted_sets()
        .into_iter()
        .map(|(name, records)| {
            let count = (records.len() / RECORD_LENGTH) as i128;
            read(name, file(header(SMALL, count, 1), 0, &records), None)
        })
        .collect();
    cases.extend([
        read("printed", bytes(PRINTED), None),
        read("steps-0", file(header(SMALL, 0, 0), 0, &[]), None),
        read("steps-10000", file(header(SMALL, 0, 10_000), 0, &[]), None),
        read(
            "48-by-4",
            file(header(Size::new(48, 4), 0, 1), 0, &[]),
            None,
        ),
        read(
            "4-by-48",
            file(header(Size::new(4, 48), 0, 1), 0, &[]),
            None,
        ),
        read(
            "largest-gravity",
            file(with_gravity(4096, 4096), 0, &[]),
            None,
        ),
        read(
            "smallest-gravity",
            file(with_gravity(-4096, -4096), 0, &[]),
            None,
        ),
        read("gravity-1-and--1", file(with_gravity(1, -1), 0, &[]), None),
    ]);
    cases.extend(edges_and_drags().into_iter().map(|(name, header)| {
        let file = file(header, 0, &[]);
        read(&name, file, None)
    }));
    cases
}

/// Headers with every edge, and drags at their ends and one bit each.
fn edges_and_drags() -> Vec<(String, Header)> {
    let mut headers = Vec::new();
    for edge in Edge::ALL {
        for drag in [0, 1, 2, 4, 8, 16, 32, 64, 128, 254, 255] {
            let name = format!("{}-drag-{drag}", edge_name(edge));
            headers.push((name, with_edge(edge, drag)));
        }
    }
    headers
}

/// The printed example.
const PRINTED: [u8; HEADER_LENGTH + RECORD_LENGTH] = [
    0x10, 0x40, 0x00, 0x00, 0x00, 0x00, 0x08, 0x00, 0x20, 0x00, 0x00, 0x00, 0x07, 0x00, 0x81, 0x00,
    0x10, 0x01, 0xFE, 0x00, 0x00, 0x00, 0x00, 0x00, 0x00, 0x00,
];

fn header_cases() -> Vec<Case> {
    let write = |name: &str, header: Header, number: u32| {
        let stated = (number > 0).then_some((number, 0));
        let operation = Operation::WriteHeader(header);
        case(
            format!("write-header/{name}"),
            operation,
            bytes([0xA5; HEADER_LENGTH]),
            stated,
        )
    };
    let broken = Header {
        settings: broken(Size::new(4, 49)),
        ..header(SMALL, 4097, 10_001)
    };
    let with_count = |count: i128, header: Header| Header {
        count,
        steps: 10_001,
        ..header
    };
    let mut gravity = broken;
    gravity.settings.size = SMALL;
    let edge = with_count(4097, with_edge(Edge::new(3, 3), 256));
    let drag = with_count(4097, with_edge(Edge::slip(3), 256));
    let count = with_count(4097, with_edge(Edge::slip(3), 255));
    let steps = with_count(4096, with_edge(Edge::slip(3), 255));
    let largest = Header {
        settings: Settings::new(Size::new(48, 48), 4096, 4096)
            .with_edge(Edge::slip(3))
            .with_drag(255),
        ..header(SMALL, 4096, 10_000)
    };
    let mut cases = vec![
        write("printed", header(SMALL, 1, 1), 0),
        write(
            "smallest",
            Header {
                ..with_gravity(-4096, -4096)
            },
            0,
        ),
        write("largest", largest, 0),
        write("2-before-the-rest", broken, 2),
        write("10-before-the-rest", gravity, 10),
        write("18-before-the-rest", edge, 18),
        write("19-before-3-and-17", drag, 19),
        write("3-before-17", count, 3),
        write("17", steps, 17),
    ];
    for (name, header) in edges_and_drags() {
        cases.push(write(&name, header, 0));
    }
    for (name, edge) in REFUSED_EDGES {
        cases.push(write(name, with_edge(edge, 0), 18));
    }
    for number in REFUSED_DRAGS {
        let header = with_edge(Edge::sticky(1), number);
        cases.push(write(&format!("drag-{number}"), header, 19));
    }
    for length in [0, 8, 9, 10, 12] {
        let name = format!("write-header/length-{length}");
        let buffers = bytes(vec![0xA5; length]);
        cases.push(case(
            name,
            Operation::WriteHeader(broken),
            buffers,
            Some((1, 0)),
        ));
    }
    cases
}

fn program_cases() -> Vec<Case> {
    let program = |name: &str, file: Buffers| {
        let name = format!("program/{name}");
        case(name, Operation::Program, file, None)
    };
    let one = |steps: i128, particle: Particle| {
        let record = marked(particle).pack();
        file(header(SMALL, 1, steps), 0, &record)
    };
    let gliding = Particle::at_rest(40, 3, 100, 100).moving(-7, 0);
    let leaving = Particle::at_rest(40, 3, 90, 100).moving(-63, 0);
    let with = |edge: Edge, drag: i128| {
        let header = Header {
            count: 1,
            ..with_edge(edge, drag)
        };
        file(header, 0, &marked(gliding).pack())
    };
    let massless = Particle { mass: 0, ..lone(2) };
    let refused = marked_records(&[lone(1), massless]);
    let marks = |gx: i128, gy: i128| {
        let header = Header {
            settings: Settings::new(Size::new(8, 9), gx, gy),
            ..header(SMALL, 5, 9)
        };
        file(header, 0, &pack_records(&differing_marks()))
    };
    vec![
        program("printed", bytes(PRINTED)),
        program("no-input", bytes([])),
        program("text", bytes(*b"hello, grid\n")),
        program(
            "longer-than-any-file",
            file(header(SMALL, 1, 1), 0, &[0; MAX_SET_LENGTH + 1]),
        ),
        program("no-record", file(header(SMALL, 0, 10), 0, &[])),
        program("no-step", one(0, lone(1))),
        program("refused-record", file(header(SMALL, 2, 1), 0, &refused)),
        program("stopped", one(100, gliding.with_b([1, -2, 3, -4]))),
        program("stopped-at-once", one(100, leaving)),
        program("sticky", with(Edge::sticky(1), 0)),
        program("slip-with-drag", with(Edge::slip(2), 30)),
        program("drag", with(Edge::OPEN, 90)),
        program("refused-edge", with(Edge::new(3, 1), 0)),
        program("marks", marks(8, 7)),
        program("marks-stopped", marks(3000, 900)),
        program("without-marks", bytes(&PRINTED[..PRINTED.len() - 1])),
        program("ten-bytes", bytes(&PRINTED[..HEADER_LENGTH - 1])),
        program("header-alone", bytes(&PRINTED[..HEADER_LENGTH])),
    ]
}
