//! Marks: every number of 8 bits, written and read, summed, and left by every call; what else a call does
//! is the same whatever they are.

use reference::generator::Generator;
use reference::limits::{HEADER_LENGTH, RECORD_LENGTH};
use reference::particle_set::{pack_records, particles};
use reference::{adding_scatter, check_set, gather, program, read_file, read_record, run, scatter};
use reference::{step, totals, write_record};
use reference::{Edge, Grid, Header, Particle, Refusal, RunAnswer, Settings, Size};

const SIZE: Size = Size { nx: 7, ny: 9 };

/// Records whose other bits are zero, but for a mass; ones; and neither.
fn others() -> [Particle; 3] {
    [
        Particle::at_rest(0, 1, 0, 0),
        Particle::at_rest(u16::MAX, 1023, 4095, 4095)
            .moving(-1, -1)
            .with_b([-1; 4]),
        Particle::at_rest(258, 5, 77, 1033)
            .moving(-6, 7)
            .with_b([-800, 901, 1002, -1103]),
    ]
}

#[test]
fn every_number_is_written_and_read() {
    for other in others() {
        for marks in 0..=u8::MAX {
            let particle = other.with_marks(marks);
            let mut record = [0xA5; RECORD_LENGTH];
            assert_eq!(write_record(&particle, &mut record), Ok(()));
            assert_eq!(read_record(&record), Ok(particle));
            let (last, rest) = record.split_last().expect("a byte");
            assert_eq!((*last, rest), (marks, &other.pack()[..RECORD_LENGTH - 1]));
        }
    }
}

/// Four particles, of which marks, masses and identifiers all differ, and which all move.
fn marked() -> [Particle; 4] {
    [
        Particle::at_rest(2, 40, 150, 300)
            .moving(3, -2)
            .with_marks(255),
        Particle::at_rest(9, 7, 171, 321)
            .with_b([12, -30, 40, 5])
            .with_marks(0),
        Particle::at_rest(255, 901, 300, 217)
            .moving(-4, 1)
            .with_marks(131),
        Particle::at_rest(4000, 3, 310, 200)
            .moving(0, 5)
            .with_marks(18),
    ]
}

/// Identifiers with their marks.
fn marks(records: &[u8]) -> Vec<(u16, u8)> {
    let set = particles(Size::new(48, 48), records).expect("an accepted set");
    set.iter().map(|p| (p.identifier, p.marks)).collect()
}

/// The marks of [`marked`].
const MARKS: [(u16, u8); 4] = [(2, 255), (9, 0), (255, 131), (4000, 18)];

#[test]
fn their_sum() {
    let sum = |set: &[Particle]| totals(SIZE, &pack_records(set)).map(|totals| totals.marks);
    let set = marked();
    for (count, expected) in [0, 255, 255, 386, 404].into_iter().enumerate() {
        assert_eq!(sum(&set[..count]), Ok(expected));
    }
    let found = totals(SIZE, &pack_records(&set)).unwrap();
    assert_eq!(found.values()[5], 404);
    assert_eq!(found.mass, 951);
    // As many as a set can have.
    let most = (0..4096).map(|k| Particle::at_rest(k, 32, 100, 90).with_marks(255));
    assert_eq!(sum(&most.collect::<Vec<_>>()), Ok(4096 * 255));
}

/// What a call makes of [`marked`] and a grid that holds something.
fn called<T>(call: impl FnOnce(&mut [u8], &mut Grid) -> T) -> (T, Vec<u8>) {
    let mut records = pack_records(&marked());
    let mut grid = Grid::filled(SIZE.nodes(), 9, 700, -300);
    let answer = call(&mut records, &mut grid);
    (answer, records)
}

fn settings(gx: i128, gy: i128) -> Settings {
    Settings::new(SIZE, gx, gy)
}

#[test]
fn left_by_a_gather() {
    for (ux, uy, stated) in [
        (700, -300, None),
        (-2000, 900, None),
        (16_256, 0, Some((13, 0))),
        (15_360, 0, Some((15, 2))),
        (0, 131_073, Some((12, 0))),
    ] {
        let nodes = SIZE.nodes();
        let (answer, after) =
            called(|records, _| gather(SIZE, records, &vec![ux; nodes], &vec![uy; nodes]));
        let refusal = stated.map(|(number, place)| Refusal::at(number, place));
        assert_eq!(answer.err(), refusal);
        assert_eq!(marks(&after), MARKS);
        assert_eq!(after == pack_records(&marked()), stated.is_some());
    }
}

#[test]
fn left_by_a_step() {
    for (settings, number) in [
        (settings(5, -60), 0),
        (settings(5, -60).with_edge(Edge::sticky(2)).with_drag(9), 0),
        (settings(4096, 0).with_edge(Edge::slip(3)).with_drag(255), 0),
        (settings(4096, 4096 - 16), 0),
        (settings(0, 4097), 10),
        (settings(5, -60).with_edge(Edge::new(3, 1)), 18),
        (settings(5, -60).with_drag(256), 19),
    ] {
        let (answer, after) = called(|records, grid| step(settings, records, &mut grid.buffers()));
        assert_eq!(answer.map_or_else(|refusal| refusal.number, |()| 0), number);
        assert_eq!(marks(&after), MARKS);
        assert_eq!(after == pack_records(&marked()), number > 0);
    }
    // A step that is tried, and stopped.
    let fast = marked().map(|p| p.moving(0, 63));
    let mut records = pack_records(&fast);
    let mut grid = Grid::zero(SIZE.nodes());
    let answer = step(settings(0, 4096), &mut records, &mut grid.buffers());
    assert_eq!(answer, Err(Refusal::at(13, 0)));
    assert_eq!(marks(&records), MARKS);
}

#[test]
fn left_by_a_run() {
    let ran = |settings: Settings, steps: i128| {
        let (answer, after) =
            called(|records, grid| run(settings, steps, records, &mut grid.buffers()));
        assert_eq!(marks(&after), MARKS);
        let RunAnswer { completed, refusal } = answer;
        (completed, refusal.map(|refusal| refusal.number))
    };
    assert_eq!(ran(settings(5, -60), 0), (0, None));
    assert_eq!(ran(settings(5, -6), 10), (10, None));
    let held = settings(5, -6).with_edge(Edge::sticky(2)).with_drag(3);
    assert_eq!(ran(held, 1_000), (1_000, None));
    for (settings, number) in [(settings(600, -400), 15), (settings(40, 4096), 13)] {
        let (completed, refusal) = ran(settings, 10_000);
        assert!(completed > 0, "{refusal:?}");
        assert_eq!(refusal, Some(number));
    }
    assert_eq!(ran(settings(5, -60), 10_001), (0, Some(17)));
    assert_eq!(ran(settings(-4097, -60), 3), (0, Some(10)));
}

/// Any calls on the same records with marks and without: the same answers, grids and other fields.
#[test]
fn nothing_else_looks_at_them() {
    let mut generator = Generator::new(24);
    let mut stopped = 0;
    for _ in 0..300 {
        let size = Size::new(generator.between(4, 12), generator.between(4, 12));
        let g = generator.one_of(&[3, 200, 4096]);
        let settings = Settings::new(size, generator.between(-g, g), generator.between(-g, g))
            .with_edge(generator.edge())
            .with_drag(generator.one_of(&[0, 1, 200]));
        let steps = generator.between(0, 20);
        let set = generator.particles(size, 8, 20, 300);
        let other = set.iter().map(|p| p.with_marks(p.marks ^ 0xA5));
        let sets = [set.clone(), other.collect()];
        let [one, other] = sets.map(|set| {
            let mut records = pack_records(&set);
            let mut grids = [0; 4].map(|_| Grid::filled(size.nodes(), 5, 300, -200));
            let [scattered, added, stepped, run_on] = &mut grids;
            let answers = (
                check_set(size, &records),
                scatter(size, &records, &mut scattered.buffers()),
                adding_scatter(size, &records, &mut added.buffers()),
                step(settings, &mut records, &mut stepped.buffers()),
                run(settings, steps, &mut records, &mut run_on.buffers()),
            );
            let after = particles(size, &records).expect("an accepted set");
            for (before, after) in set.iter().zip(&after) {
                assert_eq!(before.marks, after.marks);
            }
            let unmarked: Vec<Particle> = after.iter().map(|p| p.with_marks(0)).collect();
            (answers, grids, unmarked)
        });
        assert!(one == other, "{settings:?}");
        stopped += usize::from(one.0 .4.refusal.is_some());
    }
    assert!((50..250).contains(&stopped), "{stopped} runs were stopped");
}

/// A file of records that lack their marks, 11 + 14·count bytes, is refused with 1, and so are such a
/// record and such a set, where its length is not that of other records.
#[test]
fn records_without_marks() {
    let lacking = RECORD_LENGTH - 1;
    for count in [1, 2, 14, 15, 30, 4096] {
        let header = Header {
            settings: settings(3, -5),
            count: count as i128,
            steps: 1,
        };
        let record = |k: usize| Particle::at_rest(k as u16, 1, 100, 90).pack();
        let records: Vec<u8> = (0..count)
            .flat_map(|k| record(k)[..lacking].to_vec())
            .collect();
        let file = [&header.pack(0)[..], &records].concat();
        assert_eq!(file.len(), HEADER_LENGTH + lacking * count);
        assert_eq!(read_file(&file), Err(Refusal::at(1, 0)));
        assert_eq!(program(&file), "refused 1 at 0\n");
        if count % RECORD_LENGTH != 0 {
            assert_eq!(check_set(SIZE, &records), Err(Refusal::at(1, 0)));
        }
        if count == 1 {
            assert_eq!(read_record(&records), Err(Refusal::at(1, 0)));
        }
    }
}
