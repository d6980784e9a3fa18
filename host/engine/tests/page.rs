//! The lesson page: each of its calls at its limits and one beyond, the order of its refusals, and the bench's calls,
//! which take what the page refuses.

use engine::{forget, page, return_to, write_header, write_record};
use engine::{Edge, GridBuffers, Header, Limit, Particle, Refusal, RunAnswer, Settings, Size};
use engine::{HEADER_LENGTH, RECORD_LENGTH, STORE_LENGTH};

const MOST: usize = page::MOST_RECORDS;

type Done = Result<(), Refusal>;

/// The functions of a caller.
struct Calls {
    check_set: fn(Size, &[u8]) -> Result<usize, Refusal>,
    totals: fn(Size, &[u8]) -> Result<engine::Totals, Refusal>,
    scatter: fn(Size, &[u8], &mut GridBuffers) -> Done,
    adding_scatter: fn(Size, &[u8], &mut GridBuffers) -> Done,
    update: fn(Settings, &mut GridBuffers) -> Done,
    gather: fn(Size, &mut [u8], &[i64], &[i64]) -> Done,
    step: fn(Settings, &mut [u8], &mut GridBuffers) -> Done,
    run: fn(Settings, usize, &mut [u8], &mut GridBuffers) -> RunAnswer,
    read_file: fn(&[u8]) -> Result<Header, Refusal>,
    keep: fn(&mut [u8], &[u8], &[u8]) -> Done,
}

/// Those of a module.
macro_rules! calls {
    ($module:ident) => {
        Calls {
            check_set: $module::check_set,
            totals: $module::totals,
            scatter: $module::scatter,
            adding_scatter: $module::adding_scatter,
            update: $module::update,
            gather: $module::gather,
            step: $module::step,
            run: $module::run,
            read_file: $module::read_file,
            keep: $module::keep,
        }
    };
}

const BENCH: Calls = calls!(engine);
const PAGE: Calls = calls!(page);

/// What a call is given, and leaves.
#[derive(Clone, Debug, PartialEq)]
struct Bath {
    settings: Settings,
    steps: usize,
    records: Vec<u8>,
    mass: Vec<u64>,
    x: Vec<i64>,
    y: Vec<i64>,
}

impl Bath {
    /// So many slow particles.
    fn new(nx: usize, ny: usize, count: usize) -> Self {
        let mut records = vec![0; RECORD_LENGTH * count];
        for (k, record) in records.chunks_exact_mut(RECORD_LENGTH).enumerate() {
            let particle = Particle {
                identifier: 9 * k as u16,
                mass: 1 + k as u64 % 31,
                x: 80 + k as u64 % 32,
                y: 80 + k as u64 / 256,
                vx: k as i64 % 3 - 1,
                vy: 1 - k as i64 % 2,
                marks: (7 * k) as u8,
                ..Particle::default()
            };
            write_record(&particle, record).expect("a particle in range");
        }
        Bath {
            settings: Settings {
                size: Size { nx, ny },
                gx: 3,
                gy: -2,
                edge: Edge::Slip(1),
                drag: 9,
            },
            steps: 2,
            records,
            mass: vec![5; nx * ny],
            x: vec![300; nx * ny],
            y: vec![-200; nx * ny],
        }
    }

    /// The bath with one change.
    fn with(&self, change: impl FnOnce(&mut Bath)) -> Bath {
        let mut other = self.clone();
        change(&mut other);
        other
    }

    /// The bath as a file.
    fn file(&self) -> Vec<u8> {
        let Settings {
            size,
            gx,
            gy,
            edge,
            drag,
        } = self.settings;
        let header = Header {
            size,
            gx,
            gy,
            count: self.records.len() / RECORD_LENGTH,
            steps: self.steps,
            edge,
            drag,
        };
        let mut file = vec![0; HEADER_LENGTH];
        write_header(&header, &mut file).expect("a header in range");
        file.extend(&self.records);
        file
    }

    /// What each call with a set answers, by name; a refused one changes nothing.
    fn answers(&self, calls: &Calls) -> Vec<(&'static str, Option<Refusal>)> {
        let Bath {
            settings, steps, ..
        } = *self;
        let size = settings.size;
        let call = |call: &dyn Fn(&mut [u8], &mut GridBuffers) -> Option<Refusal>| {
            let mut after = self.clone();
            let mut grid = GridBuffers {
                mass: &mut after.mass,
                x: &mut after.x,
                y: &mut after.y,
            };
            let refusal = call(&mut after.records, &mut grid);
            assert!(refusal.is_none() || after == *self, "{refusal:?}");
            refusal
        };
        vec![
            ("check a set", (calls.check_set)(size, &self.records).err()),
            ("totals", (calls.totals)(size, &self.records).err()),
            (
                "scatter",
                call(&|records, grid| (calls.scatter)(size, records, grid).err()),
            ),
            (
                "adding scatter",
                call(&|records, grid| (calls.adding_scatter)(size, records, grid).err()),
            ),
            (
                "gather",
                call(&|records, grid| (calls.gather)(size, records, grid.x, grid.y).err()),
            ),
            (
                "step",
                call(&|records, grid| (calls.step)(settings, records, grid).err()),
            ),
            (
                "run",
                call(&|records, grid| {
                    let answer = (calls.run)(settings, steps, records, grid);
                    let taken = if answer.refusal.is_none() { steps } else { 0 };
                    assert_eq!(answer.completed, taken);
                    answer.refusal
                }),
            ),
        ]
    }

    /// What update answers; a refused one changes nothing.
    fn updated(&self, calls: &Calls) -> Option<Refusal> {
        let mut after = self.clone();
        let mut grid = GridBuffers {
            mass: &mut after.mass,
            x: &mut after.x,
            y: &mut after.y,
        };
        let refusal = (calls.update)(self.settings, &mut grid).err();
        assert!(refusal.is_none() || after == *self, "{refusal:?}");
        refusal
    }

    /// What read a file and keep answer; a refused keep leaves its store, an accepted one can be returned to.
    fn kept(&self, calls: &Calls) -> Option<Refusal> {
        let file = self.file();
        let read = (calls.read_file)(&file).err();
        let mut store = vec![0; STORE_LENGTH];
        assert_eq!((calls.keep)(&mut store, b"NAME", &file).err(), read);
        let mut buffer = vec![0; engine::MOST_FILE_LENGTH];
        let length = return_to(&store, b"NAME", &mut buffer).ok();
        assert_eq!(length, read.is_none().then_some(file.len()));
        if read.is_none() {
            assert!(buffer[..file.len()] == file);
            assert_eq!(forget(&mut store, b"NAME"), Ok(()));
        }
        assert!(store.iter().all(|&byte| byte == 0));
        read
    }

    /// Every call with a set is refused so by the page, or not.
    fn page_answers(&self, limit: Option<Limit>) {
        let expected = limit.map(|limit| Refusal { limit, place: 0 });
        for (name, found) in self.answers(&PAGE) {
            assert_eq!(found, expected, "{name}");
        }
    }

    /// Every call answers so to the page, and takes the bath of the bench.
    fn page_and_bench_answer(&self, limit: Option<Limit>) {
        self.page_answers(limit);
        let expected = limit.map(|limit| Refusal { limit, place: 0 });
        assert_eq!(self.kept(&PAGE), expected);
        // No set goes to update.
        let size = expected.filter(|refusal| refusal.limit == Limit::GridSize);
        assert_eq!(self.updated(&PAGE), size);
        for (name, found) in self.answers(&BENCH) {
            assert_eq!(found, None, "{name}");
        }
        assert_eq!((self.kept(&BENCH), self.updated(&BENCH)), (None, None));
    }
}

#[test]
fn sizes() {
    for (nx, ny) in [(16, 4), (4, 16), (16, 16), (15, 16)] {
        Bath::new(nx, ny, 3).page_and_bench_answer(None);
    }
    for (nx, ny) in [(17, 4), (4, 17), (17, 16), (16, 17), (48, 4), (5, 48)] {
        for count in [0, 3, MOST, MOST + 1] {
            Bath::new(nx, ny, count).page_and_bench_answer(Some(Limit::GridSize));
        }
    }
}

#[test]
fn records() {
    for count in [0, 1, MOST - 1, MOST] {
        Bath::new(16, 15, count).page_and_bench_answer(None);
    }
    for count in [MOST + 1, MOST + 2, 1024, 4095, 4096] {
        Bath::new(5, 16, count).page_and_bench_answer(Some(Limit::Count));
    }
    Bath::new(5, 16, 4097).page_answers(Some(Limit::Length));
}

/// 3 comes after 2 and all of 1, and before gravity, edge, drag, steps and the records.
#[test]
fn order_in_calls() {
    let large = Bath::new(7, 16, MOST + 1);
    for size in [Size { nx: 17, ny: 16 }, Size { nx: 7, ny: 3 }] {
        let wrong = large.with(|bath| {
            bath.settings.size = size;
            bath.records.push(0);
        });
        wrong.page_answers(Some(Limit::GridSize));
    }
    let odd = large.with(|bath| bath.records.push(0));
    odd.page_answers(Some(Limit::Length));
    let lengths: [fn(&mut Bath); 3] = [
        |bath| bath.mass.truncate(1),
        |bath| bath.x.push(0),
        |bath| bath.y.truncate(1),
    ];
    for change in lengths {
        let answers = large.with(change).answers(&PAGE);
        for (name, found) in answers {
            let limit = found.map(|refusal| refusal.limit);
            // No grid goes to the first two, and no mass to gather.
            let judged = match name {
                "check a set" | "totals" => false,
                "gather" => large.with(change).mass.len() == large.mass.len(),
                _ => true,
            };
            let expected = if judged { Limit::Length } else { Limit::Count };
            assert_eq!(limit, Some(expected), "{name}");
        }
    }
    let later: [fn(&mut Bath); 6] = [
        |bath| bath.settings.gx = 4097,
        |bath| bath.settings.edge = Edge::Sticky(0),
        |bath| bath.settings.drag = 256,
        |bath| bath.steps = 10_001,
        |bath| bath.records[2..4].fill(0),
        |bath| bath.x[3] = i64::MAX,
    ];
    for change in later {
        large.with(change).page_answers(Some(Limit::Count));
    }
}

/// In a file 3 comes after 10 and 18, and before 17, 16, the length and the records. Store and name come before.
#[test]
fn order_in_files() {
    let file = Bath::new(16, 9, MOST + 1).file();
    // What is broken, and the limits that page and bench tell.
    type Broken = (fn(&mut Vec<u8>), Limit, Option<Limit>);
    let broken: [Broken; 9] = [
        (|_| {}, Limit::Count, None),
        (|file| file[0] = 17 << 2, Limit::GridSize, None),
        (|file| file[1] |= 4, Limit::Gravity, Some(Limit::Gravity)),
        (|file| file[9] |= 0xF0, Limit::Edge, Some(Limit::Edge)),
        (|file| file[6] |= 7, Limit::Count, Some(Limit::Steps)),
        (|file| file[10] |= 1, Limit::Count, Some(Limit::SpareBits)),
        (|file| file.push(0), Limit::Count, Some(Limit::Length)),
        (|file| file[13..15].fill(0), Limit::Count, Some(Limit::Mass)),
        (|file| file.truncate(10), Limit::Length, Some(Limit::Length)),
    ];
    for (change, page, bench) in broken {
        let mut file = file.clone();
        change(&mut file);
        for (calls, limit) in [(PAGE, Some(page)), (BENCH, bench)] {
            let mut store = vec![0; STORE_LENGTH];
            let kept = |store: &mut [u8], name: &[u8]| {
                let answer = (calls.keep)(store, name, &file);
                answer.err().map(|refusal| refusal.limit)
            };
            assert_eq!(kept(&mut store, b"a"), Some(Limit::Name));
            assert_eq!(kept(&mut store[1..], b"a"), Some(Limit::Length));
            assert!(store.iter().all(|&byte| byte == 0));
            assert_eq!(kept(&mut store, b"A"), limit);
            let read = (calls.read_file)(&file).err();
            assert_eq!(read.map(|refusal| refusal.limit), limit);
        }
    }
}

/// A store that holds the largest baths of the bench is of the form for the page too, which returns to them and
/// replaces them with its own.
#[test]
fn a_store_with_baths_of_the_bench() {
    let mut store = vec![0; STORE_LENGTH];
    let large = Bath::new(48, 40, 4096).file();
    for name in [&b"A"[..], b"SECOND", b"ABCDEFGH"] {
        assert_eq!(engine::keep(&mut store, name, &large), Ok(()));
    }
    let before = store.clone();
    let refused = Err(Limit::GridSize);
    for name in [&b"A"[..], b"OTHER"] {
        let answer = page::keep(&mut store, name, &large);
        assert_eq!(answer.map_err(|refusal| refusal.limit), refused);
    }
    assert!(store == before);
    let small = Bath::new(16, 5, MOST).file();
    assert_eq!(small.len(), page::MOST_FILE_LENGTH);
    for name in [&b"OTHER"[..], b"SECOND"] {
        assert_eq!(page::keep(&mut store, name, &small), Ok(()));
    }
    let full = page::keep(&mut store, b"FIFTH", &small).map_err(|refusal| refusal.limit);
    assert_eq!(full, Err(Limit::FullStore));
    let mut buffer = vec![0; engine::MOST_FILE_LENGTH];
    for (name, file) in [
        (&b"A"[..], &large),
        (b"SECOND", &small),
        (b"ABCDEFGH", &large),
        (b"OTHER", &small),
    ] {
        assert_eq!(return_to(&store, name, &mut buffer), Ok(file.len()));
        assert!(buffer[..file.len()] == file[..]);
    }
}

/// A run of the page and one of the bench leave the same.
#[test]
fn a_run_of_both() {
    let mut baths = [Bath::new(16, 11, MOST), Bath::new(16, 11, MOST)];
    for (bath, calls) in baths.iter_mut().zip([BENCH, PAGE]) {
        let mut grid = GridBuffers {
            mass: &mut bath.mass,
            x: &mut bath.x,
            y: &mut bath.y,
        };
        let answer = (calls.run)(bath.settings, 40, &mut bath.records, &mut grid);
        assert_eq!((answer.completed, answer.refusal), (40, None));
    }
    assert!(baths[0] == baths[1] && baths[0] != Bath::new(16, 11, MOST));
}
