//! The calls whose stack is measured: every operation, accepted and refused, on sets of every size.

use compare::inputs::{self, Make, MakeFor};
use compare::stream;
use reference::generator::Generator;
use reference::limits::{MAX_FILE_LENGTH, STORE_LENGTH};
use reference::particle_set::pack_records;
use reference::{keep, Caller, Edge, Grid, Header, Particle, Settings, Size};
use vectors::{Buffers, Operation};

use super::table;

/// Sizes of sets: the ends of each column of the table.
const COUNTS: [usize; 11] = [0, 1, 2, 63, 64, 65, 511, 512, 513, 4095, 4096];

/// Inputs of the comparison, for each operation.
const INPUTS: u64 = 500;

/// A set of particles at rest, and the buffers that go with it.
#[derive(Clone)]
struct Bath {
    settings: Settings,
    particles: Vec<Particle>,
    /// Bytes after the last record.
    more: usize,
    nodes: usize,
}

impl Bath {
    fn new(count: usize, side: i128) -> Self {
        let size = Size::new(side, side);
        let mut numbers = Generator::new(count as u64);
        let mut place = || numbers.between(32, 64 * (side - 1) - 33);
        let particle = |k| {
            let particle = Particle::at_rest(15 * k as u16, 32, place(), place());
            particle.with_marks(k as u8)
        };
        Bath {
            settings: Settings::new(size, 0, 0),
            particles: (0..count).map(particle).collect(),
            more: 0,
            nodes: size.nodes(),
        }
    }

    /// The bath with one change.
    fn with(&self, change: impl FnOnce(&mut Bath)) -> Bath {
        let mut other = self.clone();
        change(&mut other);
        other
    }

    /// The bath with a sticky edge and drag.
    fn hindered(&self) -> Bath {
        self.with(|bath| bath.settings = bath.settings.with_edge(Edge::sticky(1)).with_drag(9))
    }

    /// The bath, and others of which one thing is strained or broken, at the last place where it can be.
    fn variants(&self) -> Vec<Bath> {
        let last = |change: fn(&mut Particle)| {
            self.with(|bath| bath.particles.last_mut().into_iter().for_each(change))
        };
        vec![
            self.clone(),
            self.with(|bath| bath.settings.gx = 4096),
            self.with(|bath| bath.particles.iter_mut().for_each(|p| p.bxy = 2047)),
            self.with(|bath| bath.particles.iter_mut().for_each(|p| p.vy = -63)),
            self.with(|bath| bath.settings.edge = Edge::sticky(3)),
            self.with(|bath| bath.settings.edge = Edge::slip(2)),
            self.with(|bath| bath.settings.drag = 255),
            self.hindered(),
            self.with(|bath| bath.settings.gy = -4097),
            self.with(|bath| bath.settings.edge = Edge::new(3, 1)),
            self.with(|bath| bath.settings.edge = Edge::slip(0)),
            self.with(|bath| bath.settings.drag = 256),
            self.with(|bath| bath.settings.size.nx = 3),
            self.with(|bath| bath.settings.size.ny = 49),
            self.with(|bath| bath.more = 1),
            self.with(|bath| bath.nodes -= 1),
            self.with(|bath| bath.particles.iter_mut().for_each(|p| p.mass = 1023)),
            last(|p| p.mass = 0),
            last(|p| p.vx = -64),
            last(|p| p.byy = -2048),
            last(|p| p.x = 4095),
            self.with(|bath| bath.particles.iter_mut().for_each(|p| p.identifier = 9)),
        ]
    }

    /// The records.
    fn bytes(&self) -> Vec<u8> {
        let mut bytes = pack_records(&self.particles);
        bytes.resize(bytes.len() + self.more, 0);
        bytes
    }

    /// The bath, whose records are these, as a file of so many steps.
    fn file_of(&self, records: &[u8], steps: i128) -> Vec<u8> {
        let header = Header {
            settings: self.settings,
            count: self.particles.len() as i128,
            steps,
        };
        [&header.pack(0)[..], records].concat()
    }

    /// The bath as a file.
    fn file(&self) -> Vec<u8> {
        self.file_of(&self.bytes(), 3)
    }

    /// Every operation that takes a set or a grid, by a caller.
    fn calls(&self, caller: Caller, mut each: impl FnMut(Caller, Operation, Buffers)) {
        let Settings { size, .. } = self.settings;
        let records = self.bytes();
        let operations = [
            Operation::CheckSet(size),
            Operation::Totals(size),
            Operation::Scatter(size),
            Operation::AddingScatter(size),
            Operation::Update(self.settings),
            Operation::Gather(size),
            Operation::Step(self.settings),
            Operation::Run(self.settings, 0),
            Operation::Run(self.settings, 1),
            Operation::Run(self.settings, 3),
            Operation::Run(self.settings, 10_001),
        ];
        for operation in operations {
            // As masses with momenta, and as velocities: slow, and too fast for a particle.
            for speed in [5, 20_000] {
                let grid = Grid::filled(self.nodes, 3, speed, -speed);
                let bytes = records.clone();
                each(caller, operation, Buffers::new(bytes, grid));
            }
        }
        for steps in [3, 10_001] {
            let bytes = self.file_of(&records, steps);
            each(caller, Operation::ReadFile, Buffers::of_bytes(bytes));
        }
    }
}

/// A store that holds this file under each of the names.
fn store(names: &[&[u8]], file: &[u8]) -> Vec<u8> {
    let mut store = vec![0; STORE_LENGTH];
    for name in names {
        keep(&mut store, name, file).expect("a place for the bath");
    }
    store
}

/// Calls with this file, on stores that are empty, that hold three of the largest baths, with this one and
/// without, or four, and that are without the form; with names that are held, that are not, and that are
/// none.
fn store_calls(file: &[u8], largest: &[u8], mut each: impl FnMut(Caller, Operation, Buffers)) {
    let others: [&[u8]; 4] = [b"A", b"SECOND", b"ABCDEFGH", b"Z"];
    let mut held = store(&others[..3], largest);
    let with_gap = held.clone();
    keep(&mut held, b"NAME", file).expect("a place for the bath");
    let mut ill_formed = held.clone();
    ill_formed[STORE_LENGTH - 1] = 1;
    let full = store(&others, largest);
    for store in [
        vec![0; STORE_LENGTH],
        with_gap,
        held,
        full,
        ill_formed,
        vec![0; 9],
    ] {
        for name in [&b"NAME"[..], b"OTHER", b"name"] {
            let buffers = |bytes: Vec<u8>| Buffers::of_store(store.clone(), name, bytes);
            for caller in Caller::ALL {
                each(caller, Operation::Keep, buffers(file.to_vec()));
            }
            each(Caller::Bench, Operation::Forget, buffers(Vec::new()));
            for length in [MAX_FILE_LENGTH, MAX_FILE_LENGTH - 1] {
                let buffers = buffers(vec![0xA5; length]);
                each(Caller::Bench, Operation::Return, buffers);
            }
        }
    }
}

/// The inputs of the comparison for each operation that knows no caller.
const MADE: [Make; 6] = [
    inputs::read_record,
    inputs::write_record,
    inputs::weights,
    inputs::write_header,
    inputs::return_to,
    inputs::forget,
];

/// Those for each operation that serves both.
const MADE_FOR: [MakeFor; 10] = [
    inputs::check_set,
    inputs::totals,
    inputs::scatter,
    inputs::adding_scatter,
    inputs::update,
    inputs::gather,
    inputs::step,
    inputs::run,
    inputs::read_file,
    inputs::keep,
];

/// All calls: for each caller baths of every size on the smallest grid, on its largest and on one between, stores,
/// the vectors, and inputs of the comparison.
pub fn all(mut each: impl FnMut(Caller, Operation, Buffers)) {
    let largest = Bath::new(4096, 48).file();
    for count in COUNTS {
        for side in [16, 48] {
            store_calls(&Bath::new(count, side).file(), &largest, &mut each);
        }
        for (caller, sides) in [(Caller::Bench, [4, 16, 48]), (Caller::Page, [4, 9, 16])] {
            for side in sides {
                for bath in Bath::new(count, side).variants() {
                    bath.calls(caller, &mut each);
                }
            }
        }
    }
    for case in vectors::cases() {
        each(case.caller, case.operation, case.before);
    }
    for k in 0..INPUTS {
        for (number, make) in MADE.iter().enumerate() {
            let (operation, buffers) = make(&mut stream(&format!("stack {number}"), k));
            each(Caller::Bench, operation, buffers);
        }
        for (number, make) in MADE_FOR.iter().enumerate() {
            for caller in Caller::ALL {
                let mut numbers = stream(&format!("stack of both {number}"), k);
                let (operation, buffers) = make(&mut numbers, caller);
                each(caller, operation, buffers);
            }
        }
    }
}

/// Files for the program, with their columns: a refused one, and those of every size, each with open
/// edges and with a sticky edge and drag.
pub fn files() -> Vec<(usize, Vec<u8>)> {
    let refused = Bath::new(1, 48)
        .with(|bath| bath.settings.size.nx = 3)
        .file();
    let sizes = table::MOST.into_iter().flat_map(|count| {
        let bath = Bath::new(count, 48);
        [bath.hindered(), bath].map(|bath| (table::column(count), bath.file()))
    });
    [(0, refused)].into_iter().chain(sizes).collect()
}
