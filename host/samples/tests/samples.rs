//! What each sample shows.

use std::collections::BTreeSet;

use reference::conservation::{Ledger, NodeChanges};
use reference::limits::{HEADER_LENGTH, RECORD_LENGTH};
use reference::particle_set::{pack_records, particles, Totals};
use reference::report::program_by;
use reference::simulation::run_by;
use reference::transfer::scatter_by;
use reference::{read_file, update, Edge, Grid, Header, Particle, RunAnswer, Settings, Size, Sums};
use samples::{samples, Sample};

fn sample(name: &str) -> Sample {
    let found = samples().into_iter().find(|sample| sample.name == name);
    found.expect("a sample of this name")
}

/// The settings, the particles before and after the run, and the run's answer.
type Ran = (Settings, Vec<Particle>, Vec<Particle>, RunAnswer);

fn run_sample(name: &str) -> Ran {
    run_changed(name, |settings| settings)
}

/// The sample's records and steps with other settings.
fn run_changed(name: &str, change: fn(Settings) -> Settings) -> Ran {
    let file = sample(name).file;
    let Header {
        settings, steps, ..
    } = read_file(&file).unwrap();
    let settings = change(settings);
    let mut records = file[HEADER_LENGTH..].to_vec();
    let before = particles(settings.size, &records).unwrap();
    let mut grid = Grid::zero(settings.size.nodes());
    let answer = run_by(
        Sums::Nearby,
        settings,
        steps,
        &mut records,
        &mut grid.buffers(),
    );
    let after = particles(settings.size, &records).unwrap();
    (settings, before, after, answer)
}

fn kept(particles: &[Particle]) -> Vec<(u16, i128, u8)> {
    let kept = particles.iter().map(|p| (p.identifier, p.mass, p.marks));
    kept.collect()
}

fn moving(particles: &[Particle]) -> usize {
    particles.iter().filter(|p| (p.vx, p.vy) != (0, 0)).count()
}

/// Mean square distance of the light particles from the middle of the grid.
fn spread(particles: &[Particle]) -> i128 {
    let light: Vec<_> = particles.iter().filter(|p| p.mass == 1).collect();
    let squares = light
        .iter()
        .map(|p| (p.x - 928).pow(2) + (p.y - 928).pow(2));
    squares.sum::<i128>() / light.len() as i128
}

#[test]
fn spreading_completes_with_every_identifier() {
    let (_, before, after, answer) = run_sample("spreading");
    assert_eq!((answer.completed, answer.refusal), (5_000, None));
    assert_eq!(kept(&after), kept(&before));
    assert!(spread(&after) > 2 * spread(&before));
    assert!(moving(&after) > 20);
}

#[test]
fn leaving_stops_with_15() {
    let (settings, before, after, answer) = run_sample("leaving");
    let refusal = answer.refusal.expect("a stop");
    assert_eq!(refusal.number, 15);
    assert!((50..1_000).contains(&answer.completed));
    assert_eq!(kept(&after), kept(&before));
    let lost = after[refusal.place];
    let (x, y) = (lost.x + lost.vx, lost.y + lost.vy);
    assert!(!settings.size.holds(x, y));
}

/// Gravity on both axes, not the same, and a grid that is not square.
fn is_skew(settings: Settings) -> bool {
    let Settings { size, gx, gy, .. } = settings;
    size.nx != size.ny && gx != gy && gx != 0 && gy != 0
}

/// The mean of a number of each particle.
fn mean(particles: &[Particle], number: fn(&Particle) -> i128) -> i128 {
    particles.iter().map(number).sum::<i128>() / particles.len() as i128
}

#[test]
fn thrown_comes_down() {
    let (settings, before, after, answer) = run_sample("thrown");
    assert!(is_skew(settings));
    assert_eq!((answer.completed, answer.refusal), (34, None));
    assert_eq!(kept(&after), kept(&before));
    assert!(mean(&before, |p| p.vy) > 10 && mean(&after, |p| p.vy) < -10);
    assert!(mean(&before, |p| p.vx) > 10 && mean(&after, |p| p.vx) < 0);
}

#[test]
fn falling_stops_with_13() {
    let (settings, before, after, answer) = run_sample("falling");
    assert!(is_skew(settings));
    assert_eq!(answer.refusal.map(|refusal| refusal.number), Some(13));
    assert!((40..100).contains(&answer.completed));
    assert_eq!(kept(&after), kept(&before));
    assert!(after.iter().any(|p| p.vy == -63));
}

#[test]
fn full_is_full() {
    let (settings, before, after, answer) = run_sample("full");
    assert_eq!(settings.size, Size::new(48, 48));
    assert_eq!(before.len(), 4096);
    assert_eq!(before.iter().map(|p| p.mass).sum::<i128>(), 131_072);
    assert_eq!((answer.completed, answer.refusal), (40, None));
    assert_eq!(kept(&after), kept(&before));
    assert!(moving(&after) > 1_000);
}

/// The longest distance on one axis between two particles.
fn extent(particles: &[Particle]) -> i128 {
    let along = |coordinate: fn(&Particle) -> i128| {
        let places = || particles.iter().map(coordinate);
        places().max().unwrap() - places().min().unwrap()
    };
    along(|p| p.x).max(along(|p| p.y))
}

#[test]
fn sticky_holds_what_would_leave() {
    let (settings, before, after, answer) = run_sample("sticky");
    assert!(is_skew(settings));
    assert_eq!(settings.edge, Edge::sticky(2));
    assert_eq!((answer.completed, answer.refusal), (300, None));
    assert_eq!(kept(&after), kept(&before));
    assert!(extent(&after) > 2 * extent(&before));
    assert!(moving(&before) > 70 && moving(&after) < 20);
    let (_, _, _, answer) = run_changed("sticky", |settings| settings.with_edge(Edge::OPEN));
    assert_eq!(answer.refusal.map(|refusal| refusal.number), Some(15));
    assert!((10..100).contains(&answer.completed));
}

fn motion(particles: &[Particle]) -> i128 {
    Totals::of(particles).motion
}

#[test]
fn drag_slows_what_would_leave() {
    let (settings, before, after, answer) = run_sample("drag");
    assert!(is_skew(settings));
    assert_eq!((settings.edge, settings.drag), (Edge::OPEN, 60));
    assert_eq!((answer.completed, answer.refusal), (240, None));
    assert_eq!(kept(&after), kept(&before));
    assert!(extent(&after) > 2 * extent(&before));
    assert!(50 * motion(&after) < motion(&before));
    let (_, _, without, answer) = run_changed("drag", |settings| settings.with_drag(0));
    assert_eq!(answer.refusal.map(|refusal| refusal.number), Some(15));
    assert!(answer.completed > 10 && motion(&without) > motion(&before));
}

#[test]
fn spinning_sections_have_motion() {
    let (settings, before, after, answer) = run_sample("spinning");
    assert_ne!(settings.size.nx, settings.size.ny);
    assert_eq!((answer.completed, answer.refusal), (1_000, None));
    assert_eq!((after.len(), moving(&after)), (3, 0));
    assert_eq!(after, before);
    let Totals { px, py, motion, .. } = Totals::of(&after);
    assert_eq!((px, py), (0, 0));
    assert_eq!(motion, 2 * (40 * 300 * 300 + 25 * 160 * 160 + 60 * 48 * 48));
}

#[test]
fn still_rests_under_half_a_unit() {
    let (settings, before, after, answer) = run_sample("still");
    assert!(is_skew(settings));
    assert_eq!((settings.gx, settings.gy), (128, -128));
    assert_eq!((answer.completed, answer.refusal), (5_000, None));
    assert_eq!(after, before);
    assert_eq!((after.len(), motion(&after)), (60, 0));
    // Half a unit at every node that it reaches: away from zero it would be 1 and −1.
    let mut grid = Grid::zero(settings.size.nodes());
    let records = pack_records(&before);
    scatter_by(Sums::Nearby, settings.size, &records, &mut grid.buffers()).unwrap();
    update(settings, &mut grid.buffers()).unwrap();
    for (node, &mass) in grid.mass.iter().enumerate() {
        let velocity = if mass > 0 { (128, -128) } else { (0, 0) };
        assert_eq!((grid.x[node], grid.y[node]), velocity);
    }
    let (_, _, after, _) = run_changed("still", |settings| Settings {
        gx: 129,
        gy: -129,
        ..settings
    });
    assert_eq!(moving(&after), after.len());
    assert!(mean(&after, |p| p.x) > mean(&before, |p| p.x));
    assert!(mean(&after, |p| p.y) < mean(&before, |p| p.y));
}

/// The particles, each moved by so many times its velocity.
fn carried(particles: &[Particle], times: i128) -> Vec<Particle> {
    let carried = particles.iter().map(|&p| Particle {
        x: p.x + times * p.vx,
        y: p.y + times * p.vy,
        ..p
    });
    carried.collect()
}

#[test]
fn turn_comes_back() {
    let (settings, before, after, answer) = run_sample("turn");
    assert_ne!(settings.size.nx, settings.size.ny);
    assert_eq!((answer.completed, answer.refusal), (1, None));
    assert_eq!((before.len(), moving(&before)), (120, 120));
    for p in &before {
        assert_eq!((16 * p.vx, 16 * p.vy), (470 - p.y, p.x - 600));
        assert_eq!(p.b(), [0, -64, 64, 0]);
    }
    assert_eq!(after, carried(&before, 1));
}

#[test]
fn drift_goes_on() {
    let (settings, before, after, answer) = run_sample("drift");
    assert_ne!(settings.size.nx, settings.size.ny);
    assert_eq!((answer.completed, answer.refusal), (200, None));
    assert_eq!(before.len(), 150);
    for p in &before {
        assert_eq!((p.vx, p.vy, p.b()), (5, -3, [0; 4]));
    }
    assert_eq!(after, carried(&before, 200));
}

#[test]
fn small_ones_print_this() {
    let printed = "done 1 refusal 0 at 0\n\
                   mass 2 px 6 py -4 spin -640 motion 26624 marks 0\n\
                   7 2 67 62 3 -2 0 0 0 0 0\n";
    assert_eq!(sample("printed").expected_output(), printed);
    let empty = "done 10 refusal 0 at 0\nmass 0 px 0 py 0 spin 0 motion 0 marks 0\n";
    assert_eq!(sample("empty").expected_output(), empty);
    assert_eq!(sample("refused").expected_output(), "refused 8 at 2\n");
}

/// The marks of a sample's records, in range or not, each with its identifier.
fn marks(sample: &Sample) -> Vec<(u16, u8)> {
    let records = sample.file[HEADER_LENGTH..].chunks(RECORD_LENGTH);
    let particle = |record: &[u8]| Particle::unpack(record.try_into().expect("a record"));
    let particles = records.map(particle);
    particles.map(|p| (p.identifier, p.marks)).collect()
}

#[test]
fn marks_are_varied() {
    for sample in samples() {
        let marks = marks(&sample);
        match sample.name {
            "printed" => assert_eq!(marks, [(7, 0)]),
            "empty" => assert_eq!(marks, []),
            name => {
                let copied = |&(identifier, marks): &(u16, u8)| identifier % 256 == marks.into();
                assert!(!marks.iter().all(copied), "{name}");
                let differing: BTreeSet<u8> = marks.iter().map(|record| record.1).collect();
                assert!(2 * differing.len() > marks.len().min(256), "{name}");
            }
        }
    }
    let full: BTreeSet<u8> = marks(&sample("full")).iter().map(|r| r.1).collect();
    assert_eq!(full.len(), 256);
}

/// Every completed step by itself, and all of them together, keep to demand 3.
fn keeps_to_demand_3(name: &str) {
    let (settings, before, after, answer) = run_sample(name);
    let mut ledger = Ledger::new(&before);
    let mut records = pack_records(&before);
    let mut grid = Grid::zero(settings.size.nodes());
    let mut now = before;
    for _ in 0..answer.completed {
        let mut one_step = Ledger::new(&now);
        let changes = NodeChanges::of_step(&now, settings);
        one_step.count_step(&now, settings, changes);
        ledger.count_step(&now, settings, changes);
        let one = run_by(Sums::Nearby, settings, 1, &mut records, &mut grid.buffers());
        assert_eq!((one.completed, one.refusal), (1, None));
        now = particles(settings.size, &records).unwrap();
        one_step.check(&now).unwrap();
        ledger.check(&now).unwrap();
    }
    assert_eq!(now, after);
}

#[test]
fn runs_keep_to_demand_3() {
    [
        "spreading",
        "leaving",
        "thrown",
        "falling",
        "full",
        "sticky",
        "drag",
        "still",
    ]
    .into_iter()
    .for_each(keeps_to_demand_3);
}

/// The file with another number of steps.
fn with_steps(file: &[u8], steps: i128) -> Vec<u8> {
    let header = Header {
        steps,
        ..read_file(file).unwrap()
    };
    [&header.pack(0)[..], &file[HEADER_LENGTH..]].concat()
}

#[test]
fn first_steps_by_literal_sums() {
    let few = [
        ("spreading", 20),
        ("leaving", 20),
        ("full", 1),
        ("still", 20),
    ];
    let whole = [
        ("thrown", 34),
        ("falling", 200),
        ("sticky", 300),
        ("drag", 240),
    ];
    for (name, steps) in few.into_iter().chain(whole) {
        let file = with_steps(&sample(name).file, steps);
        let literal = program_by(Sums::Literal, &file);
        assert_eq!(program_by(Sums::Nearby, &file), literal);
    }
}

#[test]
#[ignore = "literal sums of whole runs take minutes"]
fn whole_runs_by_literal_sums() {
    for sample in samples() {
        let literal = program_by(Sums::Literal, &sample.file);
        assert_eq!(sample.expected_output(), literal);
    }
}
