//! What is timed: every operation on a bath.

use engine::{read_record, Edge, GridBuffers, Header, Particle, Settings};
use engine::{HEADER_LENGTH, MOST_FILE_LENGTH, RECORD_LENGTH, STORE_LENGTH};

use crate::bath::Bath;
use crate::library::{Library, PROVED};
use crate::measure::Subject;

/// What a store holds before each call: nothing, or four copies of the bath. It is put back outside of the
/// time that is taken.
#[derive(Clone, Copy, Debug, PartialEq, Eq)]
#[allow(missing_docs)]
pub enum Stored {
    Nothing,
    Four,
}

/// The names of a full store; the calls take the last.
const NAMES: [&[u8]; 4] = [b"A", b"SECOND", b"THIRD", b"ABCDEFGH"];

/// An operation, or as many calls of it as the bath has records.
#[derive(Clone, Copy, Debug, PartialEq, Eq)]
#[allow(missing_docs)]
pub enum Line {
    /// A run with an edge, open or sticky, and a drag.
    Run(Edge, usize),
    Step,
    Scatter,
    AddingScatter,
    Update,
    Gather,
    CheckSet,
    Totals,
    ReadFile,
    ReadRecords,
    WriteRecords,
    Weights,
    WriteHeaders,
    Keep(Stored),
    Return(Stored),
    Forget(Stored),
}

impl Line {
    /// A run with open edges and without drag.
    pub const RUN: Line = Line::Run(Edge::Open, 0);

    /// All of them.
    pub const ALL: [Line; 22] = [
        Line::RUN,
        Line::Run(Edge::Sticky(2), 0),
        Line::Run(Edge::Open, 9),
        Line::Run(Edge::Sticky(2), 9),
        Line::Step,
        Line::Scatter,
        Line::AddingScatter,
        Line::Update,
        Line::Gather,
        Line::CheckSet,
        Line::Totals,
        Line::ReadFile,
        Line::ReadRecords,
        Line::WriteRecords,
        Line::Weights,
        Line::WriteHeaders,
        Line::Keep(Stored::Nothing),
        Line::Keep(Stored::Four),
        Line::Return(Stored::Nothing),
        Line::Return(Stored::Four),
        Line::Forget(Stored::Nothing),
        Line::Forget(Stored::Four),
    ];

    /// What the table calls it.
    pub fn name(self) -> &'static str {
        match self {
            Line::Run(Edge::Open, 0) => "a run's step",
            Line::Run(_, 0) => "a run's step, sticky edge",
            Line::Run(Edge::Open, _) => "a run's step, drag",
            Line::Run(..) => "a run's step, sticky edge and drag",
            Line::Step => "step",
            Line::Scatter => "scatter",
            Line::AddingScatter => "adding scatter",
            Line::Update => "update",
            Line::Gather => "gather",
            Line::CheckSet => "check a set",
            Line::Totals => "totals",
            Line::ReadFile => "read a file",
            Line::ReadRecords => "read a record",
            Line::WriteRecords => "write a record",
            Line::Weights => "weights",
            Line::WriteHeaders => "write a header",
            Line::Keep(Stored::Nothing) => "keep, empty store",
            Line::Keep(Stored::Four) => "keep, full store",
            Line::Return(Stored::Nothing) => "return, empty store (23)",
            Line::Return(Stored::Four) => "return, full store",
            Line::Forget(Stored::Nothing) => "forget, empty store (23)",
            Line::Forget(Stored::Four) => "forget, full store",
        }
    }

    /// What its store holds, if it takes one.
    fn stored(self) -> Option<Stored> {
        match self {
            Line::Keep(stored) | Line::Return(stored) | Line::Forget(stored) => Some(stored),
            _ => None,
        }
    }

    /// What the call answers.
    fn answer(self) -> u64 {
        match self {
            Line::Return(Stored::Nothing) | Line::Forget(Stored::Nothing) => 23 << 32,
            _ => 0,
        }
    }
}

/// A line on a bath, with every buffer that it needs.
pub struct Timed {
    line: Line,
    bath: Bath,
    file: Vec<u8>,
    particles: Vec<Particle>,
    records: Vec<u8>,
    mass: Vec<u64>,
    scattered: Vec<u64>,
    momentum: [Vec<i64>; 2],
    velocity: [Vec<i64>; 2],
    grid: [Vec<i64>; 2],
    before: Vec<u8>,
    store: Vec<u8>,
    buffer: Vec<u8>,
}

/// A store that holds so much of a bath file; none where the line takes none.
fn store(stored: Option<Stored>, file: &[u8]) -> Vec<u8> {
    let mut store = vec![0; stored.map_or(0, |_| STORE_LENGTH)];
    if stored == Some(Stored::Four) {
        for name in NAMES {
            engine::keep(&mut store, name, file).expect("a place for the bath");
        }
    }
    store
}

impl Timed {
    /// The buffers hold what a scatter and an update leave.
    pub fn new(line: Line, bath: &Bath) -> Self {
        let zero = || vec![0; bath.nodes()];
        let (mut mass, mut x, mut y) = (vec![0; bath.nodes()], zero(), zero());
        let mut grid = GridBuffers {
            mass: &mut mass,
            x: &mut x,
            y: &mut y,
        };
        assert_eq!(
            PROVED.scatter(bath.settings.size, &bath.records, &mut grid),
            0
        );
        let momentum = [grid.x.to_vec(), grid.y.to_vec()];
        assert_eq!(PROVED.update(bath.settings, &mut grid), 0);
        let records = bath.records.chunks_exact(RECORD_LENGTH);
        let file = bath.file();
        let before = store(line.stored(), &file);
        Timed {
            line,
            bath: bath.clone(),
            file,
            particles: records
                .map(|record| read_record(record).expect("a record"))
                .collect(),
            records: bath.records.clone(),
            scattered: mass.clone(),
            mass,
            momentum,
            velocity: [x.clone(), y.clone()],
            grid: [x, y],
            store: before.clone(),
            before,
            buffer: vec![0; MOST_FILE_LENGTH],
        }
    }

    /// How many steps or records one call stands for.
    pub fn parts(&self) -> usize {
        match self.line {
            Line::Run(..) => self.bath.steps,
            Line::ReadRecords | Line::WriteRecords | Line::Weights | Line::WriteHeaders => {
                self.particles.len()
            }
            _ => 1,
        }
    }
}

impl Subject for Timed {
    fn prepare(&mut self) {
        if self.line == Line::AddingScatter {
            self.mass.copy_from_slice(&self.scattered);
        }
        match self.line {
            Line::AddingScatter | Line::Update => {
                self.grid[0].copy_from_slice(&self.momentum[0]);
                self.grid[1].copy_from_slice(&self.momentum[1]);
            }
            Line::Gather | Line::Step | Line::Run(..) => {
                self.records.copy_from_slice(&self.bath.records)
            }
            Line::Keep(_) | Line::Forget(_) => self.store.copy_from_slice(&self.before),
            _ => {}
        }
    }

    fn call(&mut self, library: &Library) {
        let Bath {
            settings,
            ref records,
            steps,
        } = self.bath;
        let [x, y] = &mut self.grid;
        let mut grid = GridBuffers {
            mass: &mut self.mass,
            x,
            y,
        };
        let answer = match self.line {
            Line::Run(edge, drag) => {
                let mut completed = 0;
                let answer = library.run(
                    Settings {
                        edge,
                        drag,
                        ..settings
                    },
                    steps,
                    &mut self.records,
                    &mut grid,
                    &mut completed,
                );
                assert_eq!(completed as usize, steps);
                answer
            }
            Line::Step => library.step(settings, &mut self.records, &mut grid),
            Line::Scatter => library.scatter(settings.size, records, &mut grid),
            Line::AddingScatter => library.adding_scatter(settings.size, records, &mut grid),
            Line::Update => library.update(settings, &mut grid),
            Line::Gather => {
                let [x, y] = &self.velocity;
                library.gather(settings.size, &mut self.records, x, y)
            }
            Line::CheckSet => library.check_set(settings.size, records, &mut 0),
            Line::Totals => library.totals(settings.size, records, &mut [0; 6]),
            Line::ReadFile => library.read_file(&self.file, &mut [0; 9]),
            Line::ReadRecords => {
                let mut values = [0; 11];
                let records = records.chunks_exact(RECORD_LENGTH);
                records.fold(0, |answer, record| {
                    answer | library.read_record(record, &mut values)
                })
            }
            Line::WriteRecords => {
                let records = self.records.chunks_exact_mut(RECORD_LENGTH);
                let both = self.particles.iter().zip(records);
                both.fold(0, |answer, (p, record)| {
                    answer | library.write_record(p, record)
                })
            }
            Line::Weights => {
                let mut values = [0; 3];
                let offsets = self.particles.iter().map(|p| (p.x % 64) as i64 - 32);
                offsets.fold(0, |answer, q| answer | library.weights(q, &mut values))
            }
            Line::WriteHeaders => {
                let mut bytes = [0; HEADER_LENGTH];
                let headers = self.particles.iter().map(|p| Header {
                    size: settings.size,
                    gx: p.bxx,
                    gy: p.bxy,
                    count: p.x as usize,
                    steps: p.y as usize,
                    edge: Edge::Slip(3),
                    drag: p.mass as usize,
                });
                headers.fold(0, |answer, header| {
                    answer | library.write_header(&header, &mut bytes)
                })
            }
            Line::Keep(_) => library.keep(&mut self.store, NAMES[3], &self.file),
            Line::Return(_) => library.return_to(&self.store, NAMES[3], &mut self.buffer, &mut 0),
            Line::Forget(_) => library.forget(&mut self.store, NAMES[3]),
        };
        assert_eq!(answer, self.line.answer(), "{}", self.line.name());
    }
}
