//! Sample bath files, the same on every machine, with the program's text for each by the reference.

#![forbid(unsafe_code)]
#![warn(missing_docs)]

use reference::bath_file::pack_file;
use reference::generator::Generator;
use reference::limits::D;
use reference::report::program_by;
use reference::{Edge, Particle, Settings, Size, Sums};

/// A bath file with its name.
#[derive(Clone, Debug, PartialEq, Eq)]
pub struct Sample {
    /// File name without its ending.
    pub name: &'static str,
    /// The bath file.
    pub file: Vec<u8>,
}

impl Sample {
    /// What the program prints for the file.
    pub fn expected_output(&self) -> String {
        program_by(Sums::Nearby, &self.file)
    }
}

/// All samples.
pub fn samples() -> Vec<Sample> {
    vec![
        printed(),
        empty(),
        refused(),
        spreading(),
        leaving(),
        thrown(),
        falling(),
        full(),
        sticky(),
        drag(),
        spinning(),
        still(),
        turn(),
        drift(),
    ]
}

/// A bath file of particles with marks, which their places in the file decide: from 0 to 255, without
/// order.
fn marked_file(settings: Settings, steps: i128, particles: &[Particle]) -> Vec<u8> {
    let marks = |k: usize| (73 * (k + 1) * (k + 2) / 2) as u8;
    let marked = particles.iter().enumerate();
    let marked = marked.map(|(k, particle)| particle.with_marks(marks(k)));
    pack_file(settings, steps, &marked.collect::<Vec<_>>())
}

/// Settings without gravity.
fn weightless(nx: i128, ny: i128) -> Settings {
    Settings::new(Size::new(nx, ny), 0, 0)
}

/// Document 01's printed example.
fn printed() -> Sample {
    let particle = Particle::at_rest(7, 2, 64, 64).moving(3, -2);
    Sample {
        name: "printed",
        file: pack_file(weightless(4, 4), 1, &[particle]),
    }
}

/// No particle at all.
fn empty() -> Sample {
    let settings = Settings::new(Size::new(8, 6), 12, -256);
    Sample {
        name: "empty",
        file: pack_file(settings, 10, &[]),
    }
}

/// The third record has the identifier of the second.
fn refused() -> Sample {
    let particles = [
        Particle::at_rest(100, 5, 200, 210),
        Particle::at_rest(101, 5, 220, 210),
        Particle::at_rest(101, 5, 240, 210),
        Particle::at_rest(102, 5, 260, 210),
    ];
    Sample {
        name: "refused",
        file: marked_file(weightless(8, 8), 100, &particles),
    }
}

/// Three sections at rest, out of each other's reach, each of which spins about itself.
fn spinning() -> Sample {
    let particles = [
        Particle::at_rest(3, 40, 150, 100).with_b([0, -300, 300, 0]),
        Particle::at_rest(5, 25, 420, 90).with_b([0, 160, -160, 0]),
        Particle::at_rest(8, 60, 290, 330).with_b([0, -48, 48, 0]),
    ];
    Sample {
        name: "spinning",
        file: marked_file(weightless(9, 8), 1_000, &particles),
    }
}

/// Heavy particles three nodes apart turn against each other and carry a disc of light ones, which
/// spreads and turns for 5,000 steps; the outermost heavy ones are at rest and keep it on the grid.
fn spreading() -> Sample {
    const CELLS: i128 = 10;
    const TURN: i128 = 160;
    const PULL: i128 = 13;
    let mut particles = Vec::new();
    for j in 0..CELLS {
        for i in 0..CELLS {
            let rim = [0, CELLS - 1].iter().any(|end| [i, j].contains(end));
            let turn = if (i + j) % 2 == 0 { TURN } else { -TURN };
            let b = if rim {
                [0; 4]
            } else {
                [-PULL, -turn, turn, -PULL]
            };
            let identifier = particles.len() as u16;
            let heavy = Particle::at_rest(identifier, 1023, 64 + 192 * i, 64 + 192 * j);
            particles.push(heavy.with_b(b));
        }
    }
    let mut generator = Generator::new(9);
    for (dx, dy) in disc(&mut generator, 300, 300) {
        let identifier = particles.len() as u16;
        particles.push(Particle::at_rest(identifier, 1, 928 + dx, 928 + dy));
    }
    Sample {
        name: "spreading",
        file: marked_file(weightless(3 * CELLS, 3 * CELLS), 5_000, &particles),
    }
}

/// Places spread evenly at random over a disc around (0, 0).
fn disc(generator: &mut Generator, radius: i128, count: usize) -> Vec<(i128, i128)> {
    let mut places = Vec::new();
    while places.len() < count {
        let mut coordinate = || generator.between(-radius, radius);
        let (dx, dy) = (coordinate(), coordinate());
        if dx * dx + dy * dy <= radius * radius {
            places.push((dx, dy));
        }
    }
    places
}

/// A disc of particles around a place that spreads and turns as a whole, by so many 1024ths of the
/// distance per step.
fn whirl(
    seed: u64,
    (radius, count): (i128, usize),
    place: (i128, i128),
    spread: i128,
    turn: i128,
) -> Vec<Particle> {
    let mut generator = Generator::new(seed);
    disc(&mut generator, radius, count)
        .into_iter()
        .enumerate()
        .map(|(k, (dx, dy))| {
            let mass = generator.between(1, 40);
            Particle::at_rest(1000 + 3 * k as u16, mass, place.0 + dx, place.1 + dy)
                .moving((spread * dx - turn * dy) / D, (turn * dx + spread * dy) / D)
                .with_b([spread, -turn, turn, spread])
        })
        .collect()
}

/// A turning disc that flies apart; after some steps a particle would leave the grid.
fn leaving() -> Sample {
    let particles = whirl(11, (320, 240), (736, 736), 0, 16);
    Sample {
        name: "leaving",
        file: marked_file(weightless(24, 24), 1_000, &particles),
    }
}

/// A disc of particles around a place that move alike, but for some units and some turning.
fn flock(seed: u64, count: usize, place: (i128, i128), velocity: (i128, i128)) -> Vec<Particle> {
    let mut generator = Generator::new(seed);
    disc(&mut generator, 120, count)
        .into_iter()
        .enumerate()
        .map(|(k, (dx, dy))| {
            let mass = generator.between(1, 900);
            let mut about = |middle: i128| middle + generator.between(-2, 2);
            let (vx, vy) = (about(velocity.0), about(velocity.1));
            let b = std::array::from_fn(|_| generator.between(-90, 90));
            Particle::at_rest(40 + 7 * k as u16, mass, place.0 + dx, place.1 + dy)
                .moving(vx, vy)
                .with_b(b)
        })
        .collect()
}

/// Thrown to the right and up on a wide grid, where gravity pulls to the left and down: it comes to the height of its
/// start again.
fn thrown() -> Sample {
    let settings = Settings::new(Size::new(26, 11), -200, -260);
    Sample {
        name: "thrown",
        file: marked_file(settings, 34, &flock(15, 90, (500, 260), (20, 16))),
    }
}

/// Falls on a tall grid until a velocity would pass its limit.
fn falling() -> Sample {
    let settings = Settings::new(Size::new(9, 48), 60, -250);
    Sample {
        name: "falling",
        file: marked_file(settings, 200, &flock(17, 70, (220, 2800), (1, 0))),
    }
}

/// As many particles, nodes and mass as an accepted file can have.
fn full() -> Sample {
    let mut generator = Generator::new(13);
    let particles: Vec<Particle> = (0..4096)
        .map(|k| {
            let mut near = |place: i128| place + generator.between(-20, 20);
            let (x, y) = (near(200 + 41 * (k % 64)), near(200 + 41 * (k / 64)));
            let mut velocity = || generator.between(-4, 4);
            let (vx, vy) = (velocity(), velocity());
            let b = std::array::from_fn(|_| generator.between(-60, 60));
            Particle::at_rest(16 * k as u16 + 5, 32, x, y)
                .moving(vx, vy)
                .with_b(b)
        })
        .collect();
    let settings = Settings::new(Size::new(48, 48), 3, -5);
    Sample {
        name: "full",
        file: marked_file(settings, 40, &particles),
    }
}

/// Spreads and turns until a sticky rim holds it all around; with open edges a particle would leave
/// the grid.
fn sticky() -> Sample {
    let settings = Settings::new(Size::new(22, 14), 9, -14).with_edge(Edge::sticky(2));
    let particles = whirl(19, (200, 80), (640, 420), 34, 26);
    Sample {
        name: "sticky",
        file: marked_file(settings, 300, &particles),
    }
}

/// Spreads and turns in water that slows it to a drift; without drag a particle would leave the grid.
fn drag() -> Sample {
    let settings = Settings::new(Size::new(34, 29), 45, -70).with_drag(60);
    let particles = whirl(23, (250, 90), (1000, 900), 64, 102);
    Sample {
        name: "drag",
        file: marked_file(settings, 240, &particles),
    }
}

/// At rest under half a unit of gravity on each axis: a half goes to the even neighbour, and it stays
/// where it is.
fn still() -> Sample {
    let settings = Settings::new(Size::new(13, 10), 128, -128);
    let particles = whirl(29, (180, 60), (390, 280), 0, 0);
    Sample {
        name: "still",
        file: marked_file(settings, 5_000, &particles),
    }
}

/// A disc that turns as a whole, each particle by exactly 1/16 of its distance: a step gives every
/// velocity and every B back.
fn turn() -> Sample {
    const TURN: i128 = 64;
    let mut generator = Generator::new(31);
    let particles = disc(&mut generator, 20, 120)
        .into_iter()
        .enumerate()
        .map(|(k, (i, j))| {
            let apart = D / TURN;
            let (x, y) = (600 + apart * i, 470 + apart * j);
            Particle::at_rest(500 + 9 * k as u16, generator.between(1, 40), x, y)
                .moving(-j, i)
                .with_b([0, -TURN, TURN, 0])
        });
    Sample {
        name: "turn",
        file: marked_file(weightless(20, 16), 1, &particles.collect::<Vec<_>>()),
    }
}

/// Drifts as a whole: a run gives every velocity back, and each particle moves by its velocity at every
/// step.
fn drift() -> Sample {
    let mut generator = Generator::new(37);
    let particles = disc(&mut generator, 250, 150)
        .into_iter()
        .enumerate()
        .map(|(k, (dx, dy))| {
            let mass = generator.between(1, 900);
            Particle::at_rest(30 + 11 * k as u16, mass, 420 + dx, 1080 + dy).moving(5, -3)
        });
    Sample {
        name: "drift",
        file: marked_file(weightless(30, 24), 200, &particles.collect::<Vec<_>>()),
    }
}
