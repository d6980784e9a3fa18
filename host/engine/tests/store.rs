//! Baths kept under a name: a lesson that floats, returns and floats differently, four of the largest
//! baths, and stores that are damaged.

use engine::{forget, keep, read_file, return_to, run, totals, write_header, write_record};
use engine::{Edge, GridBuffers, Header, Limit, Particle, Refusal, Size};
use engine::{HEADER_LENGTH, MOST_FILE_LENGTH, NAME_LENGTH, RECORD_LENGTH};
use engine::{STORE_LENGTH, STORE_PLACES, STORE_PLACE_LENGTH};

/// A refusal of these calls, which tell no place.
fn refused<T>(limit: Limit) -> Result<T, Refusal> {
    Err(Refusal { limit, place: 0 })
}

/// A bath as the bench has it.
#[derive(Clone, Debug, PartialEq)]
struct Bath {
    header: Header,
    records: Vec<u8>,
}

impl Bath {
    /// So many particles that drift and turn.
    fn new(count: usize) -> Self {
        let size = Size { nx: 48, ny: 40 };
        let mut records = vec![0; RECORD_LENGTH * count];
        for (k, record) in records.chunks_exact_mut(RECORD_LENGTH).enumerate() {
            let particle = Particle {
                identifier: 9 * k as u16,
                mass: 1 + k as u64 % 32,
                x: 700 + 31 * (k as u64 % 50),
                y: 800 + 17 * (k as u64 / 50),
                vx: k as i64 % 5 - 2,
                vy: 1 - k as i64 % 3,
                bxy: -40,
                byx: 40,
                marks: (3 * k) as u8,
                ..Particle::default()
            };
            write_record(&particle, record).expect("a particle in range");
        }
        let header = Header {
            size,
            gx: 0,
            gy: 0,
            count,
            steps: 40,
            edge: Edge::Open,
            drag: 0,
        };
        Bath { header, records }
    }

    fn file(&self) -> Vec<u8> {
        let mut file = vec![0; HEADER_LENGTH];
        write_header(&self.header, &mut file).expect("a header in range");
        file.extend(&self.records);
        file
    }

    /// So many steps, none of which is refused.
    fn float(&mut self, steps: usize) {
        let Size { nx, ny } = self.header.size;
        let (mut mass, mut x, mut y) = (vec![0; nx * ny], vec![0; nx * ny], vec![0; nx * ny]);
        let mut grid = GridBuffers {
            mass: &mut mass,
            x: &mut x,
            y: &mut y,
        };
        let answer = run(self.header.settings(), steps, &mut self.records, &mut grid);
        assert_eq!((answer.completed, answer.refusal), (steps, None));
    }

    fn keep(&self, store: &mut [u8], name: &str) {
        assert_eq!(keep(store, name.as_bytes(), &self.file()), Ok(()));
    }

    /// The bath that is kept under a name.
    fn kept(store: &[u8], name: &str) -> Self {
        let mut buffer = vec![0xA5; MOST_FILE_LENGTH + 9];
        let length = return_to(store, name.as_bytes(), &mut buffer).expect("a name that is held");
        assert!(buffer[length..].iter().all(|&byte| byte == 0xA5));
        buffer.truncate(length);
        Bath {
            header: read_file(&buffer).expect("an accepted file"),
            records: buffer.split_off(HEADER_LENGTH),
        }
    }
}

/// A store that holds so many baths, each with one particle more than the one before.
fn store(baths: usize) -> Vec<u8> {
    let mut store = vec![0; STORE_LENGTH];
    for (k, name) in ["A", "SECOND", "ABCDEFGH", "ABC"][..baths]
        .iter()
        .enumerate()
    {
        Bath::new(k).keep(&mut store, name);
    }
    store
}

#[test]
fn a_lesson() {
    let mut store = vec![0; STORE_LENGTH];
    let start = Bath::new(60);
    start.keep(&mut store, "START");

    let mut calm = start.clone();
    calm.float(12);
    calm.keep(&mut store, "CALM");
    let mut later = calm.clone();
    later.float(9);

    let mut wild = Bath::kept(&store, "START");
    assert_eq!(wild, start);
    (wild.header.gx, wild.header.gy) = (160, -250);
    (wild.header.edge, wild.header.drag) = (Edge::Sticky(2), 20);
    wild.float(12);
    assert_ne!(wild.records, calm.records);
    wild.keep(&mut store, "WILD");

    // The bath returned to floats as it did before, and has what it started with.
    let mut again = Bath::kept(&store, "CALM");
    assert_eq!(again, calm);
    again.float(9);
    assert_eq!(again, later);
    let sums = |bath: &Bath| totals(bath.header.size, &bath.records).expect("an accepted set");
    for bath in [&again, &Bath::kept(&store, "WILD")] {
        let (found, first) = (sums(bath), sums(&start));
        assert_eq!((found.mass, found.marks), (first.mass, first.marks));
    }

    assert_eq!(forget(&mut store, b"CALM"), Ok(()));
    assert_eq!(forget(&mut store, b"CALM"), refused(Limit::NotHeld));
    assert_eq!(Bath::kept(&store, "START"), start);
    assert_eq!(Bath::kept(&store, "WILD"), wild);
    later.keep(&mut store, "START");
    assert_eq!(Bath::kept(&store, "START"), later);
    assert_eq!(Bath::kept(&store, "WILD"), wild);
}

#[test]
fn four_of_the_largest_baths() {
    let names = ["A", "SECOND", "ABCDEFGH", "ABC"];
    let baths: Vec<Bath> = (4093..4097).map(Bath::new).rev().collect();
    let mut store = store(0);
    for (bath, name) in baths.iter().zip(names) {
        bath.keep(&mut store, name);
    }
    let file = baths[0].file();
    assert_eq!(file.len(), MOST_FILE_LENGTH);
    assert_eq!(keep(&mut store, b"FIFTH", &file), refused(Limit::FullStore));
    for (bath, name) in baths.iter().zip(names) {
        assert_eq!(Bath::kept(&store, name), *bath);
    }
    baths[0].keep(&mut store, "ABC");
    // Nothing of the longer bath is left, or the store would be refused.
    Bath::new(1).keep(&mut store, "SECOND");
    assert_eq!(Bath::kept(&store, "SECOND"), Bath::new(1));
    assert_eq!(Bath::kept(&store, "ABC"), baths[0]);
    for name in names {
        assert_eq!(forget(&mut store, name.as_bytes()), Ok(()));
    }
    assert_eq!(store, vec![0; STORE_LENGTH]);
}

#[test]
fn names_and_files_that_are_refused() {
    let before = store(4);
    let (mut after, mut buffer) = (before.clone(), vec![0xA5; MOST_FILE_LENGTH]);
    let names: [&[u8]; 9] = [
        b"",
        b"a",
        b"A\0",
        b"\0",
        b"A1",
        b"@",
        b"[",
        b"ABCDEFGHI",
        b"\xC1",
    ];
    for name in names {
        assert_eq!(keep(&mut after, name, &[]), refused(Limit::Name));
        assert_eq!(return_to(&after, name, &mut buffer), refused(Limit::Name));
        assert_eq!(forget(&mut after, name), refused(Limit::Name));
    }
    for name in [&b"AB"[..], b"ABCDEFG", b"Z"] {
        assert_eq!(keep(&mut after, name, &[]), refused(Limit::Length));
        assert_eq!(
            keep(&mut after, name, &Bath::new(1).file()),
            refused(Limit::FullStore)
        );
        assert_eq!(
            return_to(&after, name, &mut buffer),
            refused(Limit::NotHeld)
        );
        assert_eq!(forget(&mut after, name), refused(Limit::NotHeld));
    }
    let mut twice = Bath::new(3);
    twice
        .records
        .copy_within(RECORD_LENGTH..2 * RECORD_LENGTH, 2 * RECORD_LENGTH);
    let repeated = Refusal {
        limit: Limit::Identifier,
        place: 2,
    };
    assert_eq!(keep(&mut after, b"Z", &twice.file()), Err(repeated));
    for length in [0, HEADER_LENGTH, MOST_FILE_LENGTH - 1] {
        let short = &mut buffer[..length];
        assert_eq!(return_to(&after, b"A", short), refused(Limit::Length));
        assert_eq!(return_to(&after, b"", short), refused(Limit::Length));
    }
    assert!(after == before && buffer == vec![0xA5; MOST_FILE_LENGTH]);
}

/// Each of these breaks the form of a store of four baths, of which the second has one particle.
type Damage = fn(&mut Vec<u8>);

const DAMAGES: [(&str, Damage); 14] = [
    ("no byte", |store| store.clear()),
    ("a byte less", |store| store.truncate(STORE_LENGTH - 1)),
    ("a byte more", |store| store.push(0)),
    ("a name in lower case", |store| store[0] = b'a'),
    ("a name with a digit", |store| store[1] = b'1'),
    ("a name with a gap", |store| store[2] = b'B'),
    ("a file without a name", |store| store[0] = 0),
    ("a name without a file", |store| {
        store[NAME_LENGTH..STORE_PLACE_LENGTH].fill(0)
    }),
    ("a spare bit", |store| {
        store[NAME_LENGTH + HEADER_LENGTH - 1] |= 1
    }),
    ("a byte after the file", |store| {
        store[NAME_LENGTH + HEADER_LENGTH] = 1
    }),
    ("a byte at the end of a place", |store| {
        store[STORE_PLACE_LENGTH - 1] = 1
    }),
    ("a byte at the store's end", |store| {
        store[STORE_LENGTH - 1] = 1
    }),
    ("a mass of zero", |store| {
        store[STORE_PLACE_LENGTH + NAME_LENGTH + HEADER_LENGTH..][2..4].fill(0)
    }),
    ("a name twice", |store| {
        store.copy_within(..STORE_PLACE_LENGTH, STORE_PLACE_LENGTH)
    }),
];

#[test]
fn damaged_stores() {
    for (what, damage) in DAMAGES {
        let mut before = store(STORE_PLACES);
        damage(&mut before);
        let mut after = before.clone();
        for name in [&b"A"[..], b"OTHER", b"a"] {
            let mut buffer = vec![0xA5; MOST_FILE_LENGTH];
            let file = Bath::new(2).file();
            assert_eq!(
                keep(&mut after, name, &file),
                refused(Limit::Length),
                "{what}"
            );
            assert_eq!(forget(&mut after, name), refused(Limit::Length), "{what}");
            let answer = return_to(&after, name, &mut buffer);
            assert_eq!(answer, refused(Limit::Length), "{what}");
            assert!(
                after == before && buffer == vec![0xA5; MOST_FILE_LENGTH],
                "{what}"
            );
        }
    }
}

/// Free places with one byte that is not zero.
#[test]
fn damaged_free_places() {
    for at in (0..STORE_LENGTH)
        .step_by(4_001)
        .chain([NAME_LENGTH, STORE_LENGTH - 1])
    {
        let mut store = store(0);
        store[at] = 1;
        let answer = keep(&mut store, b"A", &Bath::new(0).file());
        assert_eq!(answer, refused(Limit::Length), "{at}");
    }
}
