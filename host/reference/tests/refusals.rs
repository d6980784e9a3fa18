//! Every refusal of every operation, in the documents' order: a call with all faults at once is
//! refused for the first, and with the first few mended for the next.

use reference::limits::{HEADER_LENGTH, RECORD_LENGTH};
use reference::particle_set::pack_records;
use reference::{adding_scatter, check_set, gather, read_file, read_record, run, scatter, step};
use reference::{totals, update, write_header, write_record};
use reference::{Edge, Grid, Header, Particle, Refusal, Settings, Size};

/// Everything that an operation may be given.
#[derive(Clone, Debug, PartialEq)]
struct Call {
    settings: Settings,
    steps: i128,
    count: i128,
    spare: i128,
    particles: Vec<Particle>,
    surplus_bytes: usize,
    grid: Grid,
}

/// The record at which the set's faults are made.
const FAULTY: usize = 128;

/// An accepted call whose total mass is at its limit.
fn accepted_call() -> Call {
    let size = Size::new(4, 5);
    let mut particles: Vec<Particle> = (0..=FAULTY as u16)
        .map(|identifier| Particle::at_rest(identifier, 1023, 100, 100))
        .map(|particle| particle.with_marks(251_u8.wrapping_sub(particle.identifier as u8)))
        .collect();
    particles[FAULTY].mass = 128;
    Call {
        settings: Settings::new(size, 4096, -4096)
            .with_edge(Edge::slip(3))
            .with_drag(255),
        steps: 0,
        count: particles.len() as i128,
        spare: 0,
        particles,
        surplus_bytes: 0,
        grid: Grid::filled(size.nodes(), 9, 8, -7),
    }
}

impl Call {
    fn records(&self) -> Vec<u8> {
        let mut records = pack_records(&self.particles);
        records.resize(records.len() + self.surplus_bytes, 0xA5);
        records
    }

    fn header(&self) -> Header {
        Header {
            settings: self.settings,
            count: self.count,
            steps: self.steps,
        }
    }

    fn file(&self) -> Vec<u8> {
        [self.header().pack(self.spare).to_vec(), self.records()].concat()
    }
}

/// A fault: how it is made, and the number and place of its refusal.
type Fault = (fn(&mut Call), u32, usize);

const SIZE: [Fault; 2] = [
    (|call| call.settings.size.nx = 3, 2, 0),
    (|call| call.settings.size.ny = 49, 2, 0),
];
const RECORDS_LENGTH: [Fault; 1] = [(|call| call.surplus_bytes = 1, 1, 0)];
const MASS_BUFFER: [Fault; 1] = [(|call| call.grid.mass.push(1), 1, 0)];
const VECTOR_BUFFERS: [Fault; 2] = [
    (|call| call.grid.x.truncate(19), 1, 0),
    (|call| call.grid.y.clear(), 1, 0),
];
const GRAVITY: [Fault; 2] = [
    (|call| call.settings.gx = 4097, 10, 0),
    (|call| call.settings.gy = -4097, 10, 0),
];
const EDGE: [Fault; 5] = [
    (|call| call.settings.edge = Edge::new(3, 2), 18, 0),
    (|call| call.settings.edge = Edge::new(0, 2), 18, 0),
    (|call| call.settings.edge = Edge::sticky(4), 18, 0),
    (|call| call.settings.edge = Edge::sticky(0), 18, 0),
    (|call| call.settings.edge = Edge::slip(0), 18, 0),
];
const DRAG: [Fault; 1] = [(|call| call.settings.drag = 256, 19, 0)];
const COUNT: [Fault; 1] = [(|call| call.count = 4097, 3, 0)];
const STEPS: [Fault; 1] = [(|call| call.steps = 10_001, 17, 0)];
const SPARE: [Fault; 2] = [
    (|call| call.spare |= 1 << 4, 16, 0),
    (|call| call.spare |= 1 << 3, 16, 0),
];
const SET: [Fault; 10] = [
    (|call| call.particles[FAULTY].mass = 0, 4, FAULTY),
    (|call| call.particles[FAULTY].vx = -64, 5, FAULTY),
    (|call| call.particles[FAULTY].vy = -64, 5, FAULTY),
    (|call| call.particles[FAULTY].bxx = -2048, 6, FAULTY),
    (|call| call.particles[FAULTY].bxy = -2048, 6, FAULTY),
    (|call| call.particles[FAULTY].byy = -2048, 6, FAULTY),
    (|call| call.particles[FAULTY].x = 31, 7, FAULTY),
    (|call| call.particles[FAULTY].y = 224, 7, FAULTY),
    (|call| call.particles[FAULTY].identifier = 127, 8, FAULTY),
    (|call| call.particles[FAULTY].mass = 129, 9, FAULTY),
];
const NODES: [Fault; 2] = [
    (|call| call.grid.x[3] = 131_073, 12, 3),
    (|call| call.grid.y[4] = -131_073, 12, 4),
];

/// Mends the faults one after another; the call must be refused for the first that is left, and
/// change nothing.
fn climb(faults: &[&[Fault]], operation: impl Fn(&mut Call, &mut Vec<u8>) -> Option<Refusal>) {
    let faults = faults.concat();
    for mended in 0..=faults.len() {
        let mut call = accepted_call();
        for (make, ..) in faults[mended..].iter().rev() {
            make(&mut call);
        }
        let mut records = call.records();
        let before = (call.clone(), records.clone());
        let answer = operation(&mut call, &mut records);
        let expected = faults
            .get(mended)
            .map(|&(_, n, place)| Refusal::at(n, place));
        assert_eq!(answer, expected, "{mended} faults mended");
        if expected.is_some() {
            assert!((call, records) == before, "{mended} faults mended");
        }
    }
}

#[test]
fn check_a_set_and_totals() {
    let faults = [&SIZE[..], &RECORDS_LENGTH, &SET];
    climb(&faults, |call, records| {
        check_set(call.settings.size, records).err()
    });
    climb(&faults, |call, records| {
        totals(call.settings.size, records).err()
    });
}

#[test]
fn scatter_refusals() {
    let faults = [
        &SIZE[..],
        &RECORDS_LENGTH,
        &MASS_BUFFER,
        &VECTOR_BUFFERS,
        &SET,
    ];
    climb(&faults, |call, records| {
        scatter(call.settings.size, records, &mut call.grid.buffers()).err()
    });
}

#[test]
fn adding_scatter_refusals() {
    let nodes: [Fault; 8] = [
        (|call| call.grid.mass[2] = (1 << 43) + 1, 20, 2),
        (|call| call.grid.x[2] = 9 * 457_536 + 1, 20, 2),
        (|call| call.grid.y[2] = -9 * 457_536 - 1, 20, 2),
        (|call| call.grid.y[5] = i64::MIN, 20, 5),
        (|call| call.grid.mass[5] = 1 << 43, 21, 5),
        (|call| call.grid.mass[6] = 0, 20, 6),
        (|call| call.grid.mass[15] = 1 << 43, 21, 15),
        (|call| call.grid.mass[19] = u64::MAX, 20, 19),
    ];
    let operation = |call: &mut Call, records: &mut Vec<u8>| {
        adding_scatter(call.settings.size, records, &mut call.grid.buffers()).err()
    };
    // Buffer faults shorten the grid, so node faults are tried apart from them.
    let buffers = [&SIZE[..], &RECORDS_LENGTH, &MASS_BUFFER, &VECTOR_BUFFERS];
    climb(&[&buffers[..], &[&SET]].concat(), operation);
    let faults = [&SIZE[..], &RECORDS_LENGTH, &MASS_BUFFER, &SET, &nodes];
    climb(&faults, operation);
}

#[test]
fn update_refusals() {
    let nodes: [Fault; 6] = [
        (|call| call.grid.mass[2] = (1 << 43) + 1, 11, 2),
        (|call| call.grid.x[2] = i64::MAX, 12, 2),
        (|call| call.grid.y[2] = i64::MIN, 12, 2),
        (|call| call.grid.y[3] = i64::MAX, 12, 3),
        (|call| call.grid.mass[4] = 0, 11, 4),
        (|call| call.grid.mass[19] = u64::MAX, 11, 19),
    ];
    let operation =
        |call: &mut Call, _: &mut Vec<u8>| update(call.settings, &mut call.grid.buffers()).err();
    // Buffer faults shorten the grid, so node faults are tried apart from them.
    let buffers = [&SIZE[..], &MASS_BUFFER, &VECTOR_BUFFERS, &GRAVITY];
    climb(&[&buffers[..], &[&EDGE, &DRAG]].concat(), operation);
    let faults = [&SIZE[..], &MASS_BUFFER, &GRAVITY, &EDGE, &DRAG, &nodes];
    climb(&faults, operation);
}

#[test]
fn gather_refusals() {
    let operation = |call: &mut Call, records: &mut Vec<u8>| {
        gather(call.settings.size, records, &call.grid.x, &call.grid.y).err()
    };
    climb(&[&SIZE, &RECORDS_LENGTH, &VECTOR_BUFFERS, &SET], operation);
    climb(&[&SIZE, &RECORDS_LENGTH, &SET, &NODES], operation);
}

#[test]
fn step_refusals() {
    let faults = [
        &SIZE[..],
        &RECORDS_LENGTH,
        &MASS_BUFFER,
        &VECTOR_BUFFERS,
        &GRAVITY,
        &EDGE,
        &DRAG,
        &SET,
    ];
    climb(&faults, |call, records| {
        step(call.settings, records, &mut call.grid.buffers()).err()
    });
}

#[test]
fn run_refusals() {
    let faults = [
        &SIZE[..],
        &RECORDS_LENGTH,
        &MASS_BUFFER,
        &VECTOR_BUFFERS,
        &GRAVITY,
        &EDGE,
        &DRAG,
        &STEPS,
        &SET,
    ];
    climb(&faults, |call, records| {
        let answer = run(call.settings, call.steps, records, &mut call.grid.buffers());
        assert_eq!(answer.completed, 0);
        answer.refusal
    });
}

#[test]
fn file_refusals() {
    let faults = [
        &SIZE[..],
        &GRAVITY,
        &EDGE,
        &COUNT,
        &STEPS,
        &SPARE,
        &RECORDS_LENGTH,
        &SET,
    ];
    climb(&faults, |call, _| read_file(&call.file()).err());
    let cut: Fault = (|call| call.particles.truncate(FAULTY), 1, 0);
    climb(
        &[&SIZE, &GRAVITY, &EDGE, &COUNT, &STEPS, &SPARE, &[cut]],
        |call, _| read_file(&call.file()).err(),
    );
}

#[test]
fn file_shorter_than_its_header() {
    for length in 0..HEADER_LENGTH {
        assert_eq!(
            read_file(&[0xFF; HEADER_LENGTH][..length]),
            Err(Refusal::at(1, 0))
        );
    }
}

#[test]
fn header_refusals() {
    for length in [0, 9, 10, 12] {
        let mut buffer = vec![0xA5; length];
        let mut call = accepted_call();
        call.settings.size.nx = 3;
        (call.count, call.steps) = (4097, 10_001);
        let answer = write_header(&call.header(), &mut buffer);
        assert_eq!(answer, Err(Refusal::at(1, 0)));
        assert_eq!(buffer, vec![0xA5; length]);
    }
    let faults = [&SIZE[..], &GRAVITY, &EDGE, &DRAG, &COUNT, &STEPS];
    climb(&faults, |call, _| {
        let mut buffer = [0xA5; HEADER_LENGTH];
        let answer = write_header(&call.header(), &mut buffer);
        assert_eq!(answer.is_err(), buffer == [0xA5; HEADER_LENGTH]);
        answer.err()
    });
}

#[test]
fn lowest_record_first_whatever_the_number() {
    let size = Size::new(4, 4);
    let at = |identifier| Particle::at_rest(identifier, 1, 64, 64);
    let off_grid = Particle { x: 160, ..at(1) };
    let massless = Particle { mass: 0, ..at(2) };
    let answer = |particles: &[Particle]| check_set(size, &pack_records(particles));
    assert_eq!(answer(&[at(0), off_grid, massless]), Err(Refusal::at(7, 1)));
    assert_eq!(answer(&[at(0), massless, off_grid]), Err(Refusal::at(4, 1)));
    assert_eq!(answer(&[at(3), at(3), massless]), Err(Refusal::at(8, 1)));
    assert_eq!(answer(&[at(3), at(2), at(1)]), Err(Refusal::at(8, 1)));
}

#[test]
fn record_refusals() {
    let broken = Particle {
        mass: 0,
        ..Particle::at_rest(5, 1, 4095, 0)
            .moving(-64, 0)
            .with_b([0, 0, -2048, 0])
            .with_marks(130)
    };
    let mended = [
        (broken, Some(4)),
        (Particle { mass: 1, ..broken }, Some(5)),
        (
            Particle {
                mass: 1,
                ..broken.moving(63, -64)
            },
            Some(5),
        ),
        (
            Particle {
                mass: 1,
                ..broken.moving(63, -63)
            },
            Some(6),
        ),
        (
            Particle {
                mass: 1,
                ..broken.moving(63, -63).with_b([-2047, 2047, 0, 0])
            },
            None,
        ),
    ];
    for length in [0, RECORD_LENGTH - 1, RECORD_LENGTH + 1, 2 * RECORD_LENGTH] {
        assert_eq!(read_record(&vec![0; length]), Err(Refusal::at(1, 0)));
    }
    for (particle, number) in mended {
        let expected = number.map_or(Ok(particle), |number| Err(Refusal::at(number, 0)));
        assert_eq!(read_record(&particle.pack()), expected);
    }
}

#[test]
fn write_refusals() {
    let good = Particle::at_rest(5, 1023, 4095, 0)
        .moving(63, -63)
        .with_b([2047, -2047, 0, 1])
        .with_marks(77);
    let x = Particle { x: 4096, ..good };
    let y = Particle { y: -1, ..x };
    let affine = Particle { byy: 2048, ..y };
    let velocity = Particle { vy: -64, ..affine };
    let mass = Particle {
        mass: 1024,
        ..velocity
    };
    let answers = [(mass, 4), (velocity, 5), (affine, 6), (y, 7), (x, 7)];
    for (particle, number) in answers {
        let mut buffer = [0xA5; RECORD_LENGTH];
        let answer = write_record(&particle, &mut buffer);
        assert_eq!(answer, Err(Refusal::at(number, 0)));
        assert_eq!(buffer, [0xA5; RECORD_LENGTH]);
        for length in [0, RECORD_LENGTH - 1, RECORD_LENGTH + 1] {
            let mut buffer = vec![0xA5; length];
            let answer = write_record(&particle, &mut buffer);
            assert_eq!(answer, Err(Refusal::at(1, 0)));
            assert_eq!(buffer, vec![0xA5; length]);
        }
    }
    let mut buffer = [0xA5; RECORD_LENGTH];
    assert_eq!(write_record(&good, &mut buffer), Ok(()));
    assert_eq!(read_record(&buffer), Ok(good));
}
