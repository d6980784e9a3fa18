//! Marks: every number of 8 bits is written and read, and every call leaves them with their records.

use engine::RECORD_LENGTH;
use engine::{adding_scatter, check_set, gather, read_record, run, scatter, step, totals, update};
use engine::{keep, return_to, write_header, write_record};
use engine::{Edge, GridBuffers, Header, Limit, Particle, Refusal, Settings, Size};
use engine::{HEADER_LENGTH, MOST_FILE_LENGTH, STORE_LENGTH};

const SIZE: Size = Size { nx: 8, ny: 9 };
const NODES: usize = 8 * 9;

/// A particle that glides to the right, and one at rest out of its reach.
const PARTICLES: [Particle; 2] = [
    Particle {
        identifier: 40,
        mass: 3,
        x: 100,
        y: 100,
        vx: 7,
        vy: 0,
        bxx: 0,
        bxy: 0,
        byx: 0,
        byy: 0,
        marks: 255,
    },
    Particle {
        identifier: 500,
        mass: 9,
        x: 300,
        y: 400,
        vx: 0,
        vy: 0,
        bxx: 0,
        bxy: 0,
        byx: 0,
        byy: 0,
        marks: 12,
    },
];

fn records() -> [u8; 2 * RECORD_LENGTH] {
    let mut records = [0; 2 * RECORD_LENGTH];
    let pairs = PARTICLES
        .iter()
        .zip(records.chunks_exact_mut(RECORD_LENGTH));
    for (particle, record) in pairs {
        write_record(particle, record).expect("a particle in range");
    }
    records
}

/// Each record has the identifier and marks that it started with, and their sum is the same.
fn kept(records: &[u8]) {
    for (particle, record) in PARTICLES.iter().zip(records.chunks_exact(RECORD_LENGTH)) {
        let found = read_record(record).expect("a record");
        assert_eq!(
            (found.identifier, found.marks),
            (particle.identifier, particle.marks)
        );
    }
    assert_eq!(totals(SIZE, records).map(|totals| totals.marks), Ok(267));
}

/// Gravity that is rounded away, open edges, no drag.
const OPEN: Settings = Settings {
    size: SIZE,
    gx: 0,
    gy: 3,
    edge: Edge::Open,
    drag: 0,
};

#[test]
fn every_number() {
    for marks in 0..=u8::MAX {
        let particle = Particle {
            bxx: -800,
            byy: 1103,
            marks,
            ..PARTICLES[0]
        };
        let mut record = [0xA5; RECORD_LENGTH];
        assert_eq!(write_record(&particle, &mut record), Ok(()));
        assert_eq!(read_record(&record), Ok(particle));
        assert_eq!(record[RECORD_LENGTH - 1], marks);
    }
}

/// The records of a file that is kept and returned to.
fn returned(records: &[u8]) -> Vec<u8> {
    let header = Header {
        size: SIZE,
        gx: 0,
        gy: 3,
        count: PARTICLES.len(),
        steps: 9,
        edge: Edge::Open,
        drag: 0,
    };
    let mut file = vec![0; HEADER_LENGTH];
    write_header(&header, &mut file).expect("a header in range");
    file.extend(records);
    let (mut store, mut buffer) = (vec![0; STORE_LENGTH], vec![0; MOST_FILE_LENGTH]);
    keep(&mut store, b"MARKS", &file).expect("a place that is free");
    let length = return_to(&store, b"MARKS", &mut buffer).expect("a name that is held");
    buffer[HEADER_LENGTH..length].to_vec()
}

#[test]
fn left_by_every_call() {
    let mut records = records();
    let (mut mass, mut x, mut y) = ([0; NODES], [0; NODES], [0; NODES]);
    let grid = &mut GridBuffers {
        mass: &mut mass,
        x: &mut x,
        y: &mut y,
    };
    kept(&records);
    assert_eq!(check_set(SIZE, &records), Ok(2));
    scatter(SIZE, &records, grid).expect("an accepted set");
    adding_scatter(SIZE, &records, grid).expect("an accepted set");
    kept(&records);
    update(OPEN, grid).expect("a scattered set");
    gather(SIZE, &mut records, grid.x, grid.y).expect("a gather");
    kept(&records);
    step(OPEN, &mut records, grid).expect("a step");
    kept(&records);
    let answer = run(OPEN, 12, &mut records, grid);
    assert_eq!((answer.completed, answer.refusal), (12, None));
    kept(&records);
    kept(&returned(&records));

    let before = records;
    let drag = Settings { drag: 256, ..OPEN };
    let gravity = Settings { gy: 4097, ..OPEN };
    let refused = [
        (run(drag, 3, &mut records, grid).refusal, Limit::Drag),
        (run(OPEN, 10_001, &mut records, grid).refusal, Limit::Steps),
        (step(gravity, &mut records, grid).err(), Limit::Gravity),
    ];
    for (refusal, limit) in refused {
        assert_eq!(refusal, Some(Refusal { limit, place: 0 }));
    }
    assert_eq!(records, before);

    // From x = 198 on, by 7 at each step, to 415.
    let answer = run(OPEN, 1000, &mut records, grid);
    let stopped = answer.refusal.map(|refusal| refusal.limit);
    assert_eq!((answer.completed, stopped), (31, Some(Limit::NewPosition)));
    kept(&records);
    assert!(step(OPEN, &mut records, grid).is_err());
    kept(&records);
}
