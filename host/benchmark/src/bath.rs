//! Baths whose runs do not stop early.

use std::fmt;

use engine::{Edge, GridBuffers, Header, Particle, Settings, Size};
use engine::{HEADER_LENGTH, RECORD_LENGTH};
use reference::generator::Generator;

/// A bath with a run that completes.
#[derive(Clone, Debug)]
pub struct Bath {
    /// The grid's size, gravity, edge and drag.
    pub settings: Settings,
    /// The records.
    pub records: Vec<u8>,
    /// Steps of a run.
    pub steps: usize,
}

impl Bath {
    /// `count` particles on a grid of `side` by `side` nodes, slow and turning: of the baths that a
    /// seed gives, the first whose run completes.
    pub fn new(count: usize, side: usize, steps: usize) -> Self {
        let baths = (0..1000).map(|seed| Bath::of_seed(seed, count, side, steps));
        baths
            .into_iter()
            .find(Bath::completes)
            .expect("a bath whose run completes")
    }

    /// Particles two and two against each other, a node's width and more from each side, without
    /// gravity, with open edges and without drag.
    fn of_seed(seed: u64, count: usize, side: usize, steps: usize) -> Self {
        let mut numbers = Generator::new(seed);
        let (low, high) = (128, 64 * (side as i128 - 1) - 129);
        let mut pair = (0, 0, 0);
        let mut records = vec![0; RECORD_LENGTH * count];
        for (k, record) in records.chunks_exact_mut(RECORD_LENGTH).enumerate() {
            let mut number = |low: i128, high: i128| numbers.between(low, high) as i64;
            let (x, y) = (number(low, high) as u64, number(low, high) as u64);
            let [bxx, bxy, byx, byy] = std::array::from_fn(|_| number(-40, 40));
            if k % 2 == 0 {
                pair = (number(1, 32) as u64, number(-2, 2), number(-2, 2));
            } else {
                pair = (pair.0, -pair.1, -pair.2);
            }
            let (mass, vx, vy) = pair;
            let identifier = (k * (65_536 / count)) as u16;
            let particle = Particle {
                identifier,
                mass,
                x,
                y,
                vx,
                vy,
                bxx,
                bxy,
                byx,
                byy,
                marks: (73 * k) as u8,
            };
            engine::write_record(&particle, record).expect("a particle in range");
        }
        let settings = Settings {
            size: Size { nx: side, ny: side },
            gx: 0,
            gy: 0,
            edge: Edge::Open,
            drag: 0,
        };
        Bath {
            settings,
            records,
            steps,
        }
    }

    /// Whether the run completes.
    fn completes(&self) -> bool {
        let zero = || vec![0; self.nodes()];
        let (mut mass, mut x, mut y) = (vec![0; self.nodes()], zero(), zero());
        let mut grid = GridBuffers {
            mass: &mut mass,
            x: &mut x,
            y: &mut y,
        };
        let answer = engine::run(
            self.settings,
            self.steps,
            &mut self.records.clone(),
            &mut grid,
        );
        answer.refusal.is_none()
    }

    /// The number of particles.
    pub fn count(&self) -> usize {
        self.records.len() / RECORD_LENGTH
    }

    /// The number of nodes.
    pub fn nodes(&self) -> usize {
        self.settings.size.nx * self.settings.size.ny
    }

    /// The bath as a file.
    pub fn file(&self) -> Vec<u8> {
        let Settings {
            size,
            gx,
            gy,
            edge,
            drag,
        } = self.settings;
        let header = Header {
            size,
            gx,
            gy,
            count: self.count(),
            steps: self.steps,
            edge,
            drag,
        };
        let mut file = vec![0; HEADER_LENGTH];
        engine::write_header(&header, &mut file).expect("a header in range");
        file.extend(&self.records);
        file
    }
}

impl fmt::Display for Bath {
    fn fmt(&self, out: &mut fmt::Formatter) -> fmt::Result {
        let Size { nx, ny } = self.settings.size;
        write!(out, "{} particles, {nx} by {ny} nodes", self.count())
    }
}
