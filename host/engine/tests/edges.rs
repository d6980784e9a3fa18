//! Edges and drag: by name and by number, in a file and in a call, and what is refused.

use engine::{read_file, run, step, update, write_header, write_record};
use engine::{Edge, GridBuffers, Header, Limit, Particle, Refusal, Settings, Size};
use engine::{HEADER_LENGTH, RECORD_LENGTH};

const SIZE: Size = Size { nx: 5, ny: 7 };
const NODES: usize = 5 * 7;

/// Every edge that is accepted, with its kind and width.
const EDGES: [(Edge, usize, usize); 7] = [
    (Edge::Open, 0, 0),
    (Edge::Sticky(1), 1, 1),
    (Edge::Sticky(2), 1, 2),
    (Edge::Sticky(3), 1, 3),
    (Edge::Slip(1), 2, 1),
    (Edge::Slip(2), 2, 2),
    (Edge::Slip(3), 2, 3),
];

fn settings(edge: Edge, drag: usize) -> Settings {
    Settings {
        size: SIZE,
        gx: 40,
        gy: -7,
        edge,
        drag,
    }
}

fn header(edge: Edge, drag: usize) -> Header {
    let Settings { size, gx, gy, .. } = settings(edge, drag);
    Header {
        size,
        gx,
        gy,
        count: 0,
        steps: 9,
        edge,
        drag,
    }
}

fn record() -> [u8; RECORD_LENGTH] {
    let particle = Particle {
        identifier: 7,
        mass: 3,
        x: 150,
        y: 201,
        vx: 5,
        vy: -9,
        marks: 201,
        ..Particle::default()
    };
    let mut record = [0; RECORD_LENGTH];
    write_record(&particle, &mut record).expect("a particle in range");
    record
}

/// What a call leaves: its answer, a record and the grid.
type Left = (
    Result<(), Refusal>,
    [u8; RECORD_LENGTH],
    [u64; NODES],
    [[i64; NODES]; 2],
);

/// Update, step and run by these settings, each on the same record and grid.
fn calls(settings: Settings) -> [Left; 3] {
    let call = |call: fn(Settings, &mut [u8], &mut GridBuffers) -> Result<(), Refusal>| {
        let (mut record, mut mass) = (record(), [3; NODES]);
        let [mut x, mut y] = [[1000; NODES], [-500; NODES]];
        let mut grid = GridBuffers {
            mass: &mut mass,
            x: &mut x,
            y: &mut y,
        };
        let answer = call(settings, &mut record, &mut grid);
        (answer, record, mass, [x, y])
    };
    [
        call(|settings, _, grid| update(settings, grid)),
        call(step),
        call(|settings, records, grid| {
            let answer = run(settings, 2, records, grid);
            assert_eq!(
                answer.completed,
                if answer.refusal.is_none() { 2 } else { 0 }
            );
            answer.refusal.map_or(Ok(()), Err)
        }),
    ]
}

/// Update, step, run and the writing of a header refuse these settings and leave everything as it was.
fn refused(edge: Edge, drag: usize, limit: Limit) {
    let refusal = Refusal { limit, place: 0 };
    for left in calls(settings(edge, drag)) {
        let grid = [[1000; NODES], [-500; NODES]];
        assert!(
            left == (Err(refusal), record(), [3; NODES], grid),
            "{edge:?}"
        );
    }
    let mut bytes = [9; HEADER_LENGTH];
    let answer = write_header(&header(edge, drag), &mut bytes);
    assert_eq!(
        (answer, bytes),
        (Err(refusal), [9; HEADER_LENGTH]),
        "{edge:?}"
    );
}

#[test]
fn by_name_and_by_number() {
    for (edge, kind, width) in EDGES {
        let numbered = Edge::Numbered { kind, width };
        for edge in [edge, numbered] {
            assert_eq!((edge.kind(), edge.width()), (kind, width));
        }
        for drag in [0, 100, 255] {
            let named = calls(settings(edge, drag));
            assert!(named.iter().all(|left| left.0.is_ok()), "{edge:?}");
            assert!(named == calls(settings(numbered, drag)), "{edge:?}");
        }
    }
}

/// A file gives an edge by name, whichever way it was written.
#[test]
fn in_a_file() {
    for (edge, kind, width) in EDGES {
        for given in [edge, Edge::Numbered { kind, width }] {
            let mut file = [0; HEADER_LENGTH];
            write_header(&header(given, 37), &mut file).expect("a header in range");
            assert_eq!(read_file(&file), Ok(header(edge, 37)));
        }
    }
}

/// Every other kind and width that the file's bits can have.
#[test]
fn a_file_with_no_edge() {
    let mut file = [0; HEADER_LENGTH];
    write_header(&header(Edge::Open, 0), &mut file).expect("a header in range");
    for bits in 0..16 {
        file[9] = bits << 4;
        let (kind, width) = (usize::from(bits / 4), usize::from(bits % 4));
        let accepted = EDGES.iter().any(|edge| (edge.1, edge.2) == (kind, width));
        let limit = read_file(&file).err().map(|refusal| refusal.limit);
        assert_eq!(limit, (!accepted).then_some(Limit::Edge));
    }
}

#[test]
fn refused_edges() {
    for width in [0, 4, 65_537, usize::MAX] {
        refused(Edge::Sticky(width), 0, Limit::Edge);
        refused(Edge::Slip(width), 0, Limit::Edge);
    }
    for width in [1, 2, 3, 4, usize::MAX] {
        refused(Edge::Numbered { kind: 0, width }, 0, Limit::Edge);
    }
    for kind in [3, 4, 257, 65_537, usize::MAX] {
        for width in [0, 1, 3, 4] {
            refused(Edge::Numbered { kind, width }, 0, Limit::Edge);
        }
    }
}

#[test]
fn refused_drag() {
    for drag in [256, 257, 65_536, usize::MAX] {
        for (edge, ..) in EDGES {
            refused(edge, drag, Limit::Drag);
        }
        refused(Edge::Sticky(0), drag, Limit::Edge);
    }
}
