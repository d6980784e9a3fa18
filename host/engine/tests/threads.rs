//! Calls on threads with little stack. Where one needs more than its thread has, the process ends.

use std::thread;

use engine::{
    adding_scatter, check_set, forget, gather, keep, page, read_file, return_to, run, scatter,
    step, totals, update, write_header, write_record,
};
use engine::{Edge, GridBuffers, Header, Limit, Particle, Refusal, Settings, Size};
use engine::{HEADER_LENGTH, MOST_FILE_LENGTH, RECORD_LENGTH, STORE_LENGTH};

/// Calls on a thread with so many kB of stack.
fn with_stack<T: Send>(kilobytes: usize, calls: impl FnOnce() -> T + Send) -> T {
    thread::scope(|scope| {
        let thread = thread::Builder::new().stack_size(1000 * kilobytes);
        let thread = thread.spawn_scoped(scope, calls).expect("a thread");
        thread.join().expect("calls that return")
    })
}

/// Particles at rest on the largest grid.
struct Bath {
    settings: Settings,
    records: Vec<u8>,
    mass: Vec<u64>,
    velocity: [Vec<i64>; 2],
}

impl Bath {
    fn new(count: usize) -> Self {
        Bath::on(Size { nx: 48, ny: 48 }, count, 64, 43)
    }

    /// The same on the page's largest grid.
    fn of_the_page(count: usize) -> Self {
        let most = page::MOST_NODES;
        Bath::on(Size { nx: most, ny: most }, count, 26, 34)
    }

    /// In so many columns, and so far apart.
    fn on(size: Size, count: usize, columns: u64, apart: u64) -> Self {
        let nodes = size.nx * size.ny;
        let mut records = vec![0; RECORD_LENGTH * count];
        for (k, record) in records.chunks_exact_mut(RECORD_LENGTH).enumerate() {
            let particle = Particle {
                identifier: k as u16,
                mass: 32,
                x: 40 + apart * (k as u64 % columns),
                y: 40 + apart * (k as u64 / columns),
                marks: (7 * k) as u8,
                ..Particle::default()
            };
            write_record(&particle, record).expect("a particle in range");
        }
        Bath {
            settings: Settings {
                size,
                gx: 0,
                gy: 0,
                edge: Edge::Sticky(2),
                drag: 9,
            },
            records,
            mass: vec![0; nodes],
            velocity: [vec![0; nodes], vec![0; nodes]],
        }
    }

    /// Every operation on the set but the adding scatter; of a run, so many steps.
    fn calls(&mut self, steps: usize) -> Result<(), Refusal> {
        let Bath {
            settings,
            records,
            mass,
            velocity: [x, y],
        } = self;
        let (settings, size) = (*settings, settings.size);
        let ran = run(settings, steps, records, &mut GridBuffers { mass, x, y });
        assert_eq!(ran.completed, steps, "{:?}", ran.refusal);
        check_set(size, records)?;
        totals(size, records)?;
        scatter(size, records, &mut GridBuffers { mass, x, y })?;
        update(settings, &mut GridBuffers { mass, x, y })?;
        gather(size, records, x, y)?;
        step(settings, records, &mut GridBuffers { mass, x, y })
    }

    /// A run of the page of so many steps, and a step.
    fn page_run(&mut self, steps: usize) -> Result<(), Refusal> {
        let Bath {
            settings,
            records,
            mass,
            velocity: [x, y],
        } = self;
        let grid = &mut GridBuffers { mass, x, y };
        let ran = page::run(*settings, steps, records, grid);
        assert_eq!(ran.completed, steps, "{:?}", ran.refusal);
        page::step(*settings, records, grid)
    }

    /// The page's other operations on the set.
    fn page_calls(&mut self) -> Result<(), Refusal> {
        let Bath {
            settings,
            records,
            mass,
            velocity: [x, y],
        } = self;
        let (settings, size) = (*settings, settings.size);
        let grid = &mut GridBuffers { mass, x, y };
        page::check_set(size, records)?;
        page::totals(size, records)?;
        page::scatter(size, records, grid)?;
        page::adding_scatter(size, records, grid)?;
        page::update(settings, grid)?;
        page::gather(size, records, grid.x, grid.y)
    }

    /// The set added to a grid of zeros, and to that of itself.
    fn additions(&mut self) -> Result<(), Refusal> {
        let Bath {
            settings: Settings { size, .. },
            records,
            mass,
            velocity: [x, y],
        } = self;
        let grid = &mut GridBuffers { mass, x, y };
        adding_scatter(*size, records, grid)?;
        adding_scatter(*size, records, grid)
    }

    /// Every operation refuses the set, with this limit.
    fn refusals(&mut self, limit: Limit) {
        let Bath {
            settings,
            records,
            mass,
            velocity: [x, y],
        } = self;
        let (settings, size) = (*settings, settings.size);
        let grid = &mut GridBuffers { mass, x, y };
        let refusals = [
            run(settings, 0, records, grid).refusal,
            run(settings, 9, records, grid).refusal,
            step(settings, records, grid).err(),
            scatter(size, records, grid).err(),
            adding_scatter(size, records, grid).err(),
            gather(size, records, grid.x, grid.y).err(),
            check_set(size, records).err(),
            totals(size, records).err(),
        ];
        for refusal in refusals {
            assert_eq!(refusal.map(|refusal| refusal.limit), Some(limit));
        }
    }

    /// The bath as a file.
    fn file(&self) -> Vec<u8> {
        let header = Header {
            size: self.settings.size,
            gx: self.settings.gx,
            gy: self.settings.gy,
            count: self.records.len() / RECORD_LENGTH,
            steps: 9,
            edge: self.settings.edge,
            drag: self.settings.drag,
        };
        let mut file = vec![0; HEADER_LENGTH];
        write_header(&header, &mut file).expect("a header in range");
        file.extend(&self.records);
        file
    }
}

#[test]
fn refused_calls() {
    for count in [0, 1, 64, 512, 4096] {
        let mut bath = Bath::new(count);
        with_stack(64, || {
            bath.settings.size.nx = 3;
            bath.refusals(Limit::GridSize);
            bath.settings.size.nx = 48;
            bath.records.push(0);
            bath.refusals(Limit::Length);
            bath.records.pop();
            if let Some(last) = bath.records.chunks_exact_mut(RECORD_LENGTH).last() {
                let off_the_grid = Particle {
                    x: 4095,
                    ..engine::read_record(last).expect("a record")
                };
                write_record(&off_the_grid, last).expect("a particle in range");
                bath.refusals(Limit::Position);
            }
        });
    }
}

#[test]
fn empty_and_small_sets() {
    for count in [0, 1, 64] {
        let mut bath = Bath::new(count);
        let file = bath.file();
        let calls = || {
            bath.calls(0)?;
            bath.calls(9)?;
            read_file(&file)
        };
        assert!(with_stack(64, calls).is_ok(), "{count}");
    }
}

#[test]
fn the_largest_set() {
    for count in [512, 4096] {
        let mut bath = Bath::new(count);
        let file = bath.file();
        let calls = || {
            bath.calls(0)?;
            bath.calls(3)?;
            read_file(&file)
        };
        assert!(with_stack(256, calls).is_ok(), "{count}");
    }
}

/// The largest set of the page runs where that of the bench would not.
#[test]
fn sets_of_the_page() {
    for count in [0, 1, 64, 65, page::MOST_RECORDS] {
        let mut bath = Bath::of_the_page(count);
        let file = bath.file();
        let mut store = vec![0; STORE_LENGTH];
        let runs = || {
            bath.page_run(0)?;
            bath.page_run(9)?;
            page::keep(&mut store, b"PAGE", &file)?;
            page::read_file(&file)
        };
        assert!(with_stack(64, runs).is_ok(), "{count}");
        assert_eq!(with_stack(128, || bath.page_calls()), Ok(()), "{count}");
    }
}

/// The adding scatter needs room for a grid, whatever the set's size.
#[test]
fn added_sets() {
    for count in [0, 1, 64, 512, 4096] {
        let mut bath = Bath::new(count);
        assert_eq!(with_stack(128, || bath.additions()), Ok(()), "{count}");
    }
}

/// A store's baths stay in memory that is lent: four of each size are kept, returned to, replaced and
/// forgotten.
#[test]
fn stores() {
    let names: [&[u8]; 4] = [b"A", b"SECOND", b"ABCDEFGH", b"ABC"];
    for count in [0, 1, 64, 512, 4096] {
        let file = Bath::new(count).file();
        let (mut store, mut buffer) = (vec![0; STORE_LENGTH], vec![0; MOST_FILE_LENGTH]);
        let calls = || {
            for name in names {
                keep(&mut store, name, &file)?;
            }
            for name in names {
                assert_eq!(return_to(&store, name, &mut buffer), Ok(file.len()));
                keep(&mut store, name, &file)?;
            }
            let full = keep(&mut store, b"FIFTH", &file).map_err(|refusal| refusal.limit);
            assert_eq!(full, Err(Limit::FullStore));
            names.iter().try_for_each(|name| forget(&mut store, name))
        };
        assert_eq!(with_stack(64, calls), Ok(()), "{count}");
    }
}
