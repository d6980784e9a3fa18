//! Inputs of every operation: valid ones, every limit at its edge and one beyond, and damaged bytes. Those of an
//! operation that serves both callers lie about one caller's limits; either may be given them.

use reference::generator::Generator;
use reference::limits::{HEADER_LENGTH, MAX_FILE_LENGTH, NAME_LENGTH, RECORD_LENGTH};
use reference::limits::{STORE_LENGTH, STORE_PLACES, STORE_PLACE_LENGTH};
use reference::particle_set::pack_records;
use reference::transfer::scatter_by;
use reference::{Caller, Edge, Grid, Header, Particle, Settings, Size, Sums};
use vectors::{Buffers, Operation};

/// A number at an end of its range, one beyond, inside, inside but for a higher bit that a narrower
/// type cuts off, or anywhere in its type.
fn near(numbers: &mut Generator, range: (i128, i128), kind: Ends) -> i128 {
    let (low, high) = range;
    let number = match numbers.between(0, 8) {
        0 => low,
        1 => low - 1,
        2 => high,
        3 => high + 1,
        4 => numbers.between(kind.0, kind.1),
        5 => numbers.one_of(&[0, kind.0, kind.1]),
        6 => {
            let bit = numbers.one_of(&[-1, 1]) << numbers.between(6, 63);
            numbers.between(low, high) + bit
        }
        _ => numbers.between(low, high),
    };
    number.clamp(kind.0, kind.1)
}

/// The least and the greatest number of a type.
pub type Ends = (i128, i128);

/// Those of `usize`.
pub const USIZE: Ends = (0, usize::MAX as i128);
/// Those of `u64`.
pub const U64: Ends = (0, u64::MAX as i128);
/// Those of `i64`.
pub const I64: Ends = (i64::MIN as i128, i64::MAX as i128);

/// A size: mostly small and accepted.
fn size(numbers: &mut Generator, caller: Caller) -> Size {
    let most = caller.limits().nodes;
    match numbers.between(0, 39) {
        0 => Size::new(near(numbers, (4, most), USIZE), numbers.between(4, most)),
        1 => Size::new(numbers.between(4, most), near(numbers, (4, most), USIZE)),
        2 => Size::new(numbers.one_of(&[4, most]), numbers.one_of(&[4, most])),
        3..=6 if caller == Caller::Page => about_the_page(numbers),
        3..=9 => numbers.size(),
        _ => Size::new(numbers.between(4, 9), numbers.between(4, 9)),
    }
}

/// A size about the page's limit.
fn about_the_page(numbers: &mut Generator) -> Size {
    let most = Caller::Page.limits().nodes;
    Size::new(
        numbers.between(most - 2, most + 1),
        numbers.between(most - 2, most + 1),
    )
}

/// A number of records about the page's limit, and at times one that only the bench takes or none.
fn count_about_the_page(numbers: &mut Generator) -> usize {
    let page = Caller::Page.limits().records;
    let bench = Caller::Bench.limits().records;
    let near = page + numbers.between(-1, 1);
    numbers.one_of(&[page, page + 1, near, near, near, near, bench, bench + 1]) as usize
}

/// The nearest size that the bench accepts, for particles to stand on.
fn ground(size: Size) -> Size {
    Size::new(size.nx.clamp(4, 48), size.ny.clamp(4, 48))
}

/// An edge: mostly accepted, and one in four times open.
fn edge(numbers: &mut Generator) -> Edge {
    match numbers.between(0, 39) {
        0 => Edge::new(near(numbers, (0, 2), USIZE), numbers.between(0, 3)),
        1 => Edge::new(numbers.between(0, 3), near(numbers, (0, 3), USIZE)),
        2..=9 => Edge::OPEN,
        _ => numbers.edge(),
    }
}

/// A drag: mostly accepted, and one in three times none.
fn drag(numbers: &mut Generator) -> i128 {
    match numbers.between(0, 39) {
        0 => near(numbers, (0, 255), USIZE),
        1..=12 => 0,
        13..=19 => numbers.one_of(&[1, 2, 127, 128, 129, 254, 255]),
        _ => numbers.between(0, 255),
    }
}

/// Settings: mostly accepted.
fn settings(numbers: &mut Generator, size: Size) -> Settings {
    let strongest = numbers.one_of(&[0, 10, 200, 4096]);
    let mut gravity = || match numbers.between(0, 29) {
        0 => near(numbers, (-4096, 4096), I64),
        1 => numbers.one_of(&[-4096, 4096]),
        2 => 128 * numbers.one_of(&[-5, -3, -1, 1, 3, 5]),
        _ => numbers.between(-strongest, strongest),
    };
    let (gx, gy) = (gravity(), gravity());
    Settings::new(size, gx, gy)
        .with_edge(edge(numbers))
        .with_drag(drag(numbers))
}

/// A particle on the grid with every number in its range, ends included.
fn particle(numbers: &mut Generator, size: Size) -> Particle {
    let mut number = |low, high| match numbers.between(0, 5) {
        0 => low,
        1 => high,
        _ => numbers.between(low, high),
    };
    let x = number(32, 64 * (size.nx - 1) - 33);
    let y = number(32, 64 * (size.ny - 1) - 33);
    Particle::at_rest(number(0, 65_535) as u16, number(1, 1023), x, y)
        .moving(number(-63, 63), number(-63, 63))
        .with_b(std::array::from_fn(|_| number(-2047, 2047)))
        .with_marks(number(0, 255) as u8)
}

/// One number of a particle at a limit or beyond, as far as the type of its field holds it.
fn strain(numbers: &mut Generator, p: &mut Particle, u: Ends, i: Ends) {
    match numbers.between(0, 8) {
        0 => p.mass = near(numbers, (1, 1023), u),
        1 => p.x = near(numbers, (0, 4095), u),
        2 => p.y = near(numbers, (0, 4095), u),
        3 => p.vx = near(numbers, (-63, 63), i),
        4 => p.vy = near(numbers, (-63, 63), i),
        5 => p.bxx = near(numbers, (-2047, 2047), i),
        6 => p.bxy = near(numbers, (-2047, 2047), i),
        7 => p.byx = near(numbers, (-2047, 2047), i),
        _ => p.byy = near(numbers, (-2047, 2047), i),
    }
}

/// Any bytes.
fn any_bytes(numbers: &mut Generator, length: usize) -> Vec<u8> {
    (0..length).map(|_| numbers.bits() as u8).collect()
}

/// A place in a slice that is not empty.
fn place(numbers: &mut Generator, length: usize) -> usize {
    numbers.between(0, length as i128 - 1) as usize
}

/// The number of a record's bytes.
const RECORD: i128 = RECORD_LENGTH as i128;

/// Flips bits, cuts, lengthens, or replaces the bytes.
fn damage(numbers: &mut Generator, bytes: &mut Vec<u8>) {
    match numbers.between(0, 4) {
        0 | 1 if !bytes.is_empty() => {
            for _ in 0..numbers.between(1, 3) {
                let at = place(numbers, bytes.len());
                bytes[at] ^= 1 << numbers.between(0, 7);
            }
        }
        2 => {
            let cut = numbers.one_of(&[1, 2, RECORD - 1, RECORD, RECORD + 1]) as usize;
            bytes.truncate(bytes.len().saturating_sub(cut));
        }
        3 => {
            let more = numbers.one_of(&[1, 2, RECORD - 1, RECORD, RECORD + 1]) as usize;
            bytes.extend(any_bytes(numbers, more));
        }
        _ => *bytes = any_bytes(numbers, bytes.len()),
    }
}

/// The particles of a set, mostly accepted on the grid, and for the page at times about as many as it takes.
fn particles(numbers: &mut Generator, caller: Caller, size: Size) -> Vec<Particle> {
    if numbers.once_in(60) {
        return heavy(numbers, size);
    }
    let count = if caller == Caller::Page && numbers.once_in(30) {
        count_about_the_page(numbers)
    } else {
        numbers.one_of(&[0, 1, 1, 2, 2, 3, 5, 8, 13, 40]) as usize
    };
    let v = numbers.one_of(&[0, 2, 20, 63]);
    let b = numbers.one_of(&[0, 100, 2047]);
    let mut set = numbers.particles(size, count, v, b);
    if !set.is_empty() && numbers.once_in(4) {
        let at = place(numbers, set.len());
        let identifier = set[at].identifier;
        set[at] = particle(numbers, size);
        set[at].identifier = identifier;
    }
    set
}

/// A set at the limit of mass, or one or more beyond.
fn heavy(numbers: &mut Generator, size: Size) -> Vec<Particle> {
    let mut set = numbers.particles(size, 129, 10, 10);
    for p in &mut set {
        p.mass = 1023;
    }
    set[128].mass = numbers.one_of(&[1, 127, 128, 129, 1023]);
    set
}

/// Breaks one thing that a set keeps.
fn break_set(numbers: &mut Generator, size: Size, set: &mut [Particle]) {
    if set.is_empty() {
        return;
    }
    let at = place(numbers, set.len());
    let (right, top) = (64 * (size.nx - 1) - 33, 64 * (size.ny - 1) - 33);
    match numbers.between(0, 9) {
        0 => set[at].mass = 0,
        1 => set[at].vx = -64,
        2 => set[at].vy = -64,
        3 => set[at].byx = -2048,
        4 => set[at].bxx = -2048,
        5 => set[at].x = numbers.one_of(&[0, 31, right + 1, 4095]),
        6 => set[at].y = numbers.one_of(&[0, 31, top + 1, 4095]),
        7 => set[at].identifier = set[at / 2].identifier,
        8 => set.swap(at, 0),
        _ => strain(numbers, &mut set[at], (0, 1023), (-64, 63)),
    }
}

/// The records of a set, one in four broken and one in eight damaged.
fn records(numbers: &mut Generator, caller: Caller, size: Size) -> Vec<u8> {
    let ground = ground(size);
    let mut set = particles(numbers, caller, ground);
    if numbers.once_in(4) {
        break_set(numbers, ground, &mut set);
    }
    let mut bytes = pack_records(&set);
    if numbers.once_in(8) {
        damage(numbers, &mut bytes);
    }
    bytes
}

/// The length of a grid buffer, mostly as many as nodes.
fn nodes(numbers: &mut Generator, size: Size) -> usize {
    let count = ground(size).nodes();
    match numbers.between(0, 59) {
        0 => count - 1,
        1 => count + 1,
        2 => numbers.between(0, 2_400) as usize,
        _ => count,
    }
}

/// A grid of any numbers.
fn any_grid(numbers: &mut Generator, size: Size) -> Grid {
    let mass = nodes(numbers, size);
    let (x, y) = (nodes(numbers, size), nodes(numbers, size));
    Grid {
        mass: (0..mass).map(|_| numbers.bits()).collect(),
        x: (0..x).map(|_| numbers.bits() as i64).collect(),
        y: (0..y).map(|_| numbers.bits() as i64).collect(),
    }
}

/// A call: an operation with its buffers.
pub type Call = (Operation, Buffers);

/// Makes a call of an operation that knows no caller.
pub type Make = fn(&mut Generator) -> Call;

/// Makes a call of an operation that serves both callers, about the limits of this one.
pub type MakeFor = fn(&mut Generator, Caller) -> Call;

/// Read a record.
pub fn read_record(numbers: &mut Generator) -> Call {
    let mut held = particle(numbers, Size::new(48, 48));
    if numbers.once_in(2) {
        strain(numbers, &mut held, (0, 1023), (-2048, 2047));
    }
    let mut bytes = held.pack().to_vec();
    if numbers.once_in(3) {
        damage(numbers, &mut bytes);
    }
    (Operation::ReadRecord, Buffers::of_bytes(bytes))
}

/// Write a record.
pub fn write_record(numbers: &mut Generator) -> Call {
    let mut given = particle(numbers, Size::new(48, 48));
    if numbers.once_in(2) {
        strain(numbers, &mut given, U64, I64);
    }
    let length = match numbers.between(0, 9) {
        0 => numbers.between(0, 40),
        1 => numbers.one_of(&[0, RECORD - 1, RECORD + 1]),
        _ => RECORD,
    };
    let buffer = any_bytes(numbers, length as usize);
    (Operation::WriteRecord(given), Buffers::of_bytes(buffer))
}

/// Check a set.
pub fn check_set(numbers: &mut Generator, caller: Caller) -> Call {
    let size = size(numbers, caller);
    (
        Operation::CheckSet(size),
        Buffers::of_bytes(records(numbers, caller, size)),
    )
}

/// Totals.
pub fn totals(numbers: &mut Generator, caller: Caller) -> Call {
    let size = size(numbers, caller);
    (
        Operation::Totals(size),
        Buffers::of_bytes(records(numbers, caller, size)),
    )
}

/// Weights.
pub fn weights(numbers: &mut Generator) -> Call {
    let q = near(numbers, (-32, 31), I64);
    (Operation::Weights(q), Buffers::of_bytes(Vec::new()))
}

/// Scatter.
pub fn scatter(numbers: &mut Generator, caller: Caller) -> Call {
    let size = size(numbers, caller);
    let bytes = records(numbers, caller, size);
    let grid = any_grid(numbers, size);
    (Operation::Scatter(size), Buffers::new(bytes, grid))
}

/// Fills the nodes that all buffers have; their number.
fn fill(grid: &mut Grid, mut node: impl FnMut() -> (u64, i64, i64)) -> usize {
    let count = grid.mass.len().min(grid.x.len()).min(grid.y.len());
    for k in 0..count {
        (grid.mass[k], grid.x[k], grid.y[k]) = node();
    }
    count
}

/// One number of a present node at a limit or beyond.
fn strain_node(numbers: &mut Generator, grid: &mut Grid, k: usize) {
    let most = 457_536 * i128::from(grid.mass[k]);
    match numbers.between(0, 4) {
        0 => grid.mass[k] = near(numbers, (0, 1 << 43), U64) as u64,
        1 | 2 => grid.x[k] = near(numbers, (-most, most), I64) as i64,
        _ => grid.y[k] = near(numbers, (-most, most), I64) as i64,
    }
}

/// The most mass that a node may hold before the set is added, or one more.
fn fill_node(numbers: &mut Generator, size: Size, records: &[u8], grid: &mut Grid, k: usize) {
    let mut shares = Grid::zero(size.nodes());
    if scatter_by(Sums::Nearby, size, records, &mut shares.buffers()).is_ok() {
        let share = shares.mass.get(k).copied().unwrap_or(0);
        grid.mass[k] = (1 << 43) - share + numbers.between(0, 1) as u64;
    }
}

/// Adding scatter, mostly onto nodes that are accepted, and one in five times onto nodes that hold
/// anything.
pub fn adding_scatter(numbers: &mut Generator, caller: Caller) -> Call {
    let (Operation::Scatter(size), mut buffers) = scatter(numbers, caller) else {
        unreachable!("a scatter");
    };
    let Buffers { bytes, grid, .. } = &mut buffers;
    if !numbers.once_in(5) {
        let heaviest = numbers.one_of(&[0, 1 << 20, 1 << 42, 1 << 42, 1 << 43]);
        let count = fill(grid, || numbers.present_node(heaviest));
        if count > 0 {
            let k = place(numbers, count);
            match numbers.between(0, 5) {
                0 | 1 => strain_node(numbers, grid, k),
                2 | 3 => fill_node(numbers, ground(size), bytes, grid, k),
                _ => {}
            }
        }
    }
    (Operation::AddingScatter(size), buffers)
}

/// Mass and momentum of a node, mostly within the limits, at times with a velocity about an end of its
/// range, and often with one that is a half or next to it.
fn node(numbers: &mut Generator, settings: Settings) -> (u64, i64, i64) {
    let most = 1 << 43;
    let mass = match numbers.between(0, 9) {
        0 => 0,
        1 => numbers.one_of(&[1, most - 1, most]),
        2 => numbers.between(1, 9),
        _ => numbers.between(1, most),
    };
    let mut momentum = |gravity: i128| {
        let velocity = if numbers.once_in(5) {
            numbers.one_of(&[-1, 1]) * 131_072 - gravity.clamp(-4096, 4096)
        } else {
            numbers.between(-100_000, 100_000)
        };
        let rest = match numbers.between(0, 2) {
            0 => numbers.between(-2 * mass, 2 * mass),
            1 => numbers.between(-2, 2) * mass,
            _ => numbers.one_of(&[-2, 2]) * mass + numbers.between(-1, 1).clamp(-mass, mass),
        };
        (4 * mass * velocity + rest).clamp(I64.0, I64.1) as i64
    };
    let (x, y) = (momentum(settings.gx), momentum(settings.gy));
    (mass as u64, x, y)
}

/// Update.
pub fn update(numbers: &mut Generator, caller: Caller) -> Call {
    let size = size(numbers, caller);
    let settings = settings(numbers, size);
    let mut grid = any_grid(numbers, size);
    if !numbers.once_in(10) {
        let count = fill(&mut grid, || node(numbers, settings));
        if count > 0 && numbers.once_in(5) {
            let k = place(numbers, count);
            grid.mass[k] = numbers.one_of(&[0, (1 << 43) + 1, u64::MAX.into()]) as u64;
            for axis in [&mut grid.x, &mut grid.y] {
                axis[k] = numbers.one_of(&[0, 1, I64.0, I64.1]) as i64;
            }
        }
    }
    (Operation::Update(settings), Buffers::new(Vec::new(), grid))
}

/// Node velocities up to some size, and one in eight times a node at a limit or beyond.
fn velocities(numbers: &mut Generator, count: usize) -> Vec<i64> {
    let fastest = numbers.one_of(&[0, 300, 2_000, 16_128, 16_500, 131_072]);
    let mut list: Vec<i64> = (0..count)
        .map(|_| numbers.between(-fastest, fastest) as i64)
        .collect();
    if count > 0 && numbers.once_in(8) {
        let k = place(numbers, count);
        list[k] = near(numbers, (-131_072, 131_072), I64) as i64;
    }
    list
}

/// Node velocities that are gathered to halves: to entries of B where they rise from column to column
/// and from row to row, and to velocities where they do not.
fn halves(numbers: &mut Generator, size: Size, count: usize) -> Vec<i64> {
    let mut rise = || 8 * numbers.one_of(&[0, 0, 0, -3, -1, 1, 5]);
    let (a, b) = (rise(), rise());
    let c = 128 * numbers.between(-9, 9);
    let velocity = |node| {
        let (i, j) = ground(size).column_and_row(node);
        (a * i + b * j + c) as i64
    };
    (0..count).map(velocity).collect()
}

/// Gather.
pub fn gather(numbers: &mut Generator, caller: Caller) -> Call {
    let size = size(numbers, caller);
    let bytes = records(numbers, caller, size);
    let mut axis = || {
        let count = nodes(numbers, size);
        if numbers.once_in(4) {
            halves(numbers, size, count)
        } else {
            velocities(numbers, count)
        }
    };
    let grid = Grid {
        mass: Vec::new(),
        x: axis(),
        y: axis(),
    };
    (Operation::Gather(size), Buffers::new(bytes, grid))
}

/// Step.
pub fn step(numbers: &mut Generator, caller: Caller) -> Call {
    let size = size(numbers, caller);
    let settings = settings(numbers, size);
    let bytes = records(numbers, caller, size);
    let grid = any_grid(numbers, size);
    (Operation::Step(settings), Buffers::new(bytes, grid))
}

/// Whether edges or drag can keep particles from leaving: a long run then takes all of its steps.
fn holds(settings: Settings) -> bool {
    settings.edge != Edge::OPEN || settings.drag > 0
}

/// The number of steps of a run: mostly few, and rarely very many that are taken.
fn steps(numbers: &mut Generator, settings: Settings) -> i128 {
    match numbers.between(0, 79) {
        0 if holds(settings) && !numbers.once_in(30) => numbers.one_of(&[10_001, 1 << 32, USIZE.1]),
        0 => near(numbers, (9_999, 10_000), USIZE),
        1 => numbers.between(100, 400),
        2..=9 => 0,
        _ => numbers.between(1, 9),
    }
}

/// Run.
pub fn run(numbers: &mut Generator, caller: Caller) -> Call {
    let (Operation::Step(settings), buffers) = step(numbers, caller) else {
        unreachable!("a step");
    };
    (Operation::Run(settings, steps(numbers, settings)), buffers)
}

/// What the numbers of a header are within.
struct HeaderEnds {
    side: Ends,
    gravity: Ends,
    count: Ends,
    steps: Ends,
    kind: Ends,
    width: Ends,
    drag: Ends,
}

/// A header, mostly accepted, its numbers within these ends.
fn header(
    numbers: &mut Generator,
    caller: Caller,
    size: Size,
    count: usize,
    ends: HeaderEnds,
) -> Header {
    let most = caller.limits();
    let settings = Settings::new(
        size,
        numbers.between(-4096, 4096),
        numbers.between(-4096, 4096),
    )
    .with_edge(numbers.edge())
    .with_drag(numbers.between(0, 255));
    let many = if holds(settings) && !numbers.once_in(30) {
        9
    } else {
        10_000
    };
    let mut header = Header {
        settings,
        count: count as i128,
        steps: numbers.one_of(&[0, 1, many, 77]),
    };
    match numbers.between(0, 17) {
        0 => header.settings.gx = near(numbers, (-4096, 4096), ends.gravity),
        1 => header.settings.gy = near(numbers, (-4096, 4096), ends.gravity),
        2 => header.count = near(numbers, (0, most.records), ends.count),
        3 => header.steps = near(numbers, (0, 10_000), ends.steps),
        4 => header.settings.size.nx = near(numbers, (4, most.nodes), ends.side),
        5 => header.settings.size.ny = near(numbers, (4, most.nodes), ends.side),
        6 => header.settings.edge.kind = near(numbers, (0, 2), ends.kind),
        7 => header.settings.edge.width = near(numbers, (0, 3), ends.width),
        8 => header.settings.drag = near(numbers, (0, 255), ends.drag),
        _ => {}
    }
    header
}

/// Read a file.
pub fn read_file(numbers: &mut Generator, caller: Caller) -> Call {
    let size = match caller {
        Caller::Bench => numbers.size(),
        Caller::Page if numbers.once_in(4) => about_the_page(numbers),
        Caller::Page => Size::new(numbers.between(4, 17), numbers.between(4, 17)),
    };
    let set = records(numbers, caller, size);
    let count = set.len() / RECORD_LENGTH;
    let fields = HeaderEnds {
        side: (0, 63),
        gravity: (-8192, 8191),
        count: (0, 8191),
        steps: (0, 16_383),
        kind: (0, 3),
        width: (0, 3),
        drag: (0, 255),
    };
    let spare = if numbers.once_in(12) {
        1 << numbers.between(0, 8)
    } else {
        0
    };
    let header = header(numbers, caller, size, count, fields);
    let mut file = header.pack(spare).to_vec();
    file.extend(set);
    match numbers.between(0, 19) {
        0 => file.truncate(place(numbers, file.len())),
        1 | 2 => damage(numbers, &mut file),
        3 => file.truncate(numbers.between(0, 12) as usize),
        _ => {}
    }
    (Operation::ReadFile, Buffers::of_bytes(file))
}

/// Settings that a file holds, mostly with gravity weak enough for some steps, and with open edges or
/// without drag every other time.
fn file_settings(numbers: &mut Generator, size: Size) -> Settings {
    let strongest = numbers.one_of(&[0, 40, 300, 300, 1_000, 4_096]);
    let gx = numbers.between(-strongest, strongest);
    let mut settings = Settings::new(size, gx, numbers.between(-strongest, strongest));
    if numbers.once_in(2) {
        settings.edge = numbers.edge();
    }
    if numbers.once_in(2) {
        settings.drag = numbers.one_of(&[1, 5, 40, 128, 255]);
    }
    settings
}

/// The bytes of a file whose header tells of its records.
fn file_of(settings: Settings, steps: i128, records: &[u8]) -> Vec<u8> {
    let header = Header {
        settings,
        count: (records.len() / RECORD_LENGTH) as i128,
        steps,
    };
    [&header.pack(0)[..], records].concat()
}

/// A file with as many records as one can have or some fewer, and often bytes beyond them.
fn long_file(numbers: &mut Generator) -> Vec<u8> {
    let count = numbers.one_of(&[4_096, 4_096, 4_095, 3_000]);
    let (size, records) = full_set(numbers, Caller::Bench, count as usize);
    let steps = numbers.between(0, 1);
    let mut file = file_of(file_settings(numbers, size), steps, &records);
    let more = numbers.one_of(&[0, 0, 1, 2, RECORD, RECORD + 1, 9_000, 70_000]);
    file.extend(any_bytes(numbers, more as usize));
    file
}

/// A heavy particle that turns and stretches as much as one can, and a light one that comes near it: a new B entry often
/// stops the run after some steps.
fn approach(numbers: &mut Generator) -> Vec<u8> {
    let size = Size::new(numbers.between(12, 20), numbers.between(9, 20));
    let b = std::array::from_fn(|_| numbers.one_of(&[-2_047, 0, 2_047]));
    let heavy = Particle::at_rest(3, 1_000, 600, 260)
        .with_b(b)
        .with_marks(numbers.marks());
    let light = Particle::at_rest(
        5,
        numbers.between(1, 200),
        300,
        260 + numbers.between(-99, 99),
    )
    .moving(numbers.between(5, 30), 0)
    .with_marks(numbers.marks());
    let (gx, gy) = (numbers.between(-90, -1), numbers.between(1, 90));
    file_of(
        Settings::new(size, gx, gy),
        60,
        &pack_records(&[heavy, light]),
    )
}

/// A bath file for the program: runs that complete and runs that stop, on grids of any shape; one in three as for read a
/// file, one in ten broken and one in ten damaged, one in a hundred long.
pub fn bath_file(numbers: &mut Generator) -> Vec<u8> {
    match numbers.between(0, 99) {
        0 => return long_file(numbers),
        1..=3 => return approach(numbers),
        4..=36 => return read_file(numbers, Caller::Bench).1.bytes,
        _ => {}
    }
    let size = Size::new(numbers.between(4, 16), numbers.between(4, 16));
    let count = numbers.one_of(&[0, 1, 2, 3, 8, 20]) as usize;
    let (v, b) = (
        numbers.one_of(&[0, 2, 20]),
        numbers.one_of(&[0, 100, 2_047]),
    );
    let mut set = numbers.particles(size, count, v, b);
    if numbers.once_in(60) {
        set = heavy(numbers, size);
    } else if numbers.once_in(10) {
        break_set(numbers, size, &mut set);
    }
    let steps = numbers.one_of(&[0, 1, 2, 5, 12, 40]);
    let settings = file_settings(numbers, size);
    let mut file = file_of(settings, steps, &pack_records(&set));
    if numbers.once_in(10) {
        damage(numbers, &mut file);
    }
    file
}

/// Write a header.
pub fn write_header(numbers: &mut Generator) -> Call {
    let size = size(numbers, Caller::Bench);
    let count = numbers.between(0, 4096) as usize;
    let wide = HeaderEnds {
        side: USIZE,
        gravity: I64,
        count: USIZE,
        steps: USIZE,
        kind: USIZE,
        width: USIZE,
        drag: USIZE,
    };
    let header = header(numbers, Caller::Bench, size, count, wide);
    let length = numbers.one_of(&[11, 11, 11, 11, 11, 11, 11, 11, 0, 9, 10, 12, 14]);
    let buffer = any_bytes(numbers, length as usize);
    (Operation::WriteHeader(header), Buffers::of_bytes(buffer))
}

/// A name: one of few, and one in six times none.
pub fn name(numbers: &mut Generator) -> Vec<u8> {
    const NAMES: [&[u8]; 7] = [
        b"A",
        b"AB",
        b"ABCDEFGH",
        b"ABCDEFG",
        b"B",
        b"ZZZZZZZZ",
        b"Z",
    ];
    let mut name = NAMES[place(numbers, NAMES.len())].to_vec();
    match numbers.between(0, 23) {
        0 => name.clear(),
        1 => name.resize(numbers.between(9, 40) as usize, b'A'),
        2 | 3 => {
            let at = place(numbers, name.len());
            name[at] = numbers.one_of(&[0, b'@' as i128, b'[' as i128, b'a' as i128, 0xC1]) as u8;
        }
        4 => name.push(0),
        _ => {}
    }
    name
}

/// A bath file that is accepted: mostly small, at times of as many records as one can have.
pub fn accepted_file(numbers: &mut Generator) -> Vec<u8> {
    let (size, records) = if numbers.once_in(200) {
        let count = numbers.one_of(&[4_095, 4_096]);
        full_set(numbers, Caller::Bench, count as usize)
    } else {
        accepted(numbers)
    };
    let steps = numbers.one_of(&[0, 1, 9, 10_000]);
    file_of(file_settings(numbers, size), steps, &records)
}

/// A bath file for a caller to keep, one in five refused by the bench.
pub fn file_to_keep(numbers: &mut Generator, caller: Caller) -> Vec<u8> {
    if numbers.once_in(3) {
        read_file(numbers, caller).1.bytes
    } else {
        accepted_file(numbers)
    }
}

/// The bytes of a place of a store.
fn place_of(store: &mut [u8], number: usize) -> &mut [u8] {
    &mut store[number * STORE_PLACE_LENGTH..][..STORE_PLACE_LENGTH]
}

/// The bytes of a place that holds a name and a file.
fn fill_place(place: &mut [u8], name: &[u8], file: &[u8]) {
    place.fill(0);
    place[..name.len()].copy_from_slice(name);
    place[NAME_LENGTH..][..file.len()].copy_from_slice(file);
}

/// A store of the form: no name, some or four, in any places.
pub fn well_formed(numbers: &mut Generator) -> Vec<u8> {
    let mut store = vec![0; STORE_LENGTH];
    let free = numbers.one_of(&[1, 2, 2, 5]);
    let mut held: Vec<Vec<u8>> = vec![Vec::new()];
    for number in 0..STORE_PLACES {
        if free > 1 && numbers.once_in(free) {
            continue;
        }
        let mut name = Vec::new();
        while held.contains(&name) || name.len() > NAME_LENGTH {
            name = self::name(numbers);
            name.retain(u8::is_ascii_uppercase);
        }
        fill_place(place_of(&mut store, number), &name, &accepted_file(numbers));
        held.push(name);
    }
    store
}

/// The kinds of [`damage_store`].
pub const STORE_DAMAGES: i128 = 9;

/// Breaks one thing of a store of the form, by one of [`STORE_DAMAGES`] kinds, if it can be.
pub fn damage_store(numbers: &mut Generator, store: &mut Vec<u8>, kind: i128) {
    let number = place(numbers, STORE_PLACES);
    let other = (number + 1 + place(numbers, STORE_PLACES - 1)) % STORE_PLACES;
    let copied = place_of(store, other).to_vec();
    let at = place_of(store, number);
    let end = at
        .iter()
        .rposition(|&byte| byte != 0)
        .map_or(0, |last| last + 1);
    match kind {
        // Its length.
        0 => {
            let end = STORE_LENGTH as i128;
            let lengths = [0, 1, end - 1, end + 1, STORE_PLACE_LENGTH as i128, 2 * end];
            store.resize(numbers.one_of(&lengths) as usize, 0);
        }
        // A byte of the name, of the file, after it, and anywhere.
        1 => at[place(numbers, NAME_LENGTH)] ^= 1 << numbers.between(0, 7),
        2 if end > NAME_LENGTH => {
            let byte = NAME_LENGTH + place(numbers, end - NAME_LENGTH);
            at[byte] ^= 1 << numbers.between(0, 7);
        }
        3 if end < STORE_PLACE_LENGTH => {
            let byte = numbers.one_of(&[end as i128, STORE_PLACE_LENGTH as i128 - 1]) as usize;
            at[byte] = numbers.between(1, 255) as u8;
        }
        4 => at[place(numbers, STORE_PLACE_LENGTH)] ^= 1 << numbers.between(0, 7),
        // A name that is none, a name alone, a file alone, a file that may be refused, a name twice.
        5 => {
            let name = name(numbers);
            at[..NAME_LENGTH].fill(0);
            at[..name.len().min(NAME_LENGTH)].copy_from_slice(&name[..name.len().min(NAME_LENGTH)]);
        }
        6 => at[NAME_LENGTH..].fill(0),
        7 => {
            let file = read_file(numbers, Caller::Bench).1.bytes;
            fill_place(at, b"NAME", &file[..file.len().min(MAX_FILE_LENGTH)]);
        }
        _ => at.copy_from_slice(&copied),
    }
}

/// A store, mostly of the form.
fn any_store(numbers: &mut Generator) -> Vec<u8> {
    let mut store = well_formed(numbers);
    if numbers.once_in(8) {
        let kind = numbers.between(0, STORE_DAMAGES - 1);
        damage_store(numbers, &mut store, kind);
    }
    store
}

/// Keep.
pub fn keep(numbers: &mut Generator, caller: Caller) -> Call {
    keep_in(numbers, caller, any_store)
}

/// A keep in a store that is made so.
pub fn keep_in(
    numbers: &mut Generator,
    caller: Caller,
    store: impl FnOnce(&mut Generator) -> Vec<u8>,
) -> Call {
    let (name, file) = (name(numbers), file_to_keep(numbers, caller));
    let store = store(numbers);
    (Operation::Keep, Buffers::of_store(store, &name, file))
}

/// Return.
pub fn return_to(numbers: &mut Generator) -> Call {
    return_from(numbers, any_store)
}

/// A return from a store that is made so, into a buffer of any bytes, one in eight too short.
pub fn return_from(numbers: &mut Generator, store: impl FnOnce(&mut Generator) -> Vec<u8>) -> Call {
    let most = MAX_FILE_LENGTH as i128;
    let length = match numbers.between(0, 15) {
        0 => most - 1,
        1 => numbers.one_of(&[0, HEADER_LENGTH as i128, most / 2]),
        2 => most + numbers.between(1, 99),
        _ => most,
    };
    let pattern = any_bytes(numbers, 61);
    let buffer = pattern.into_iter().cycle().take(length as usize).collect();
    let (name, store) = (name(numbers), store(numbers));
    (Operation::Return, Buffers::of_store(store, &name, buffer))
}

/// Forget.
pub fn forget(numbers: &mut Generator) -> Call {
    forget_in(numbers, any_store)
}

/// A forget in a store that is made so.
pub fn forget_in(numbers: &mut Generator, store: impl FnOnce(&mut Generator) -> Vec<u8>) -> Call {
    let (name, store) = (name(numbers), store(numbers));
    (
        Operation::Forget,
        Buffers::of_store(store, &name, Vec::new()),
    )
}

/// A call on this store: as many keeps, about this caller's limits, as returns and forgets together.
pub fn store_call(numbers: &mut Generator, caller: Caller, store: &[u8]) -> Call {
    let given = |_: &mut Generator| store.to_vec();
    match numbers.between(0, 5) {
        0..=2 => keep_in(numbers, caller, given),
        3 | 4 => return_from(numbers, given),
        _ => forget_in(numbers, given),
    }
}

/// An accepted set as its records, for lists of calls.
pub fn accepted(numbers: &mut Generator) -> (Size, Vec<u8>) {
    let size = Size::new(numbers.between(4, 12), numbers.between(4, 12));
    let count = numbers.between(0, 12) as usize;
    let v = numbers.one_of(&[0, 2, 8, 30]);
    let b = numbers.one_of(&[0, 30, 600]);
    (size, pack_records(&numbers.particles(size, count, v, b)))
}

/// An accepted set about the page's limits, of size or of number, for lists of calls of both callers.
pub fn accepted_about_the_page(numbers: &mut Generator) -> (Size, Vec<u8>) {
    let count = if numbers.once_in(12) {
        Caller::Page.limits().records + numbers.between(-1, 1)
    } else {
        numbers.between(0, 12)
    };
    let size = if numbers.once_in(2) {
        about_the_page(numbers)
    } else {
        Size::new(numbers.between(4, 16), numbers.between(4, 16))
    };
    let (v, b) = (numbers.one_of(&[0, 2, 8]), numbers.one_of(&[0, 30]));
    let set = numbers.particles(size, count as usize, v, b);
    (size, pack_records(&set))
}

/// A step or run on some records: mostly on this size, and else on one about this caller's limits, with grids that
/// hold anything.
pub fn list_call(numbers: &mut Generator, caller: Caller, size: Size, records: &[u8]) -> Call {
    let given = if numbers.once_in(8) {
        self::size(numbers, caller)
    } else {
        size
    };
    let settings = settings(numbers, given);
    let operation = if numbers.once_in(2) {
        Operation::Step(settings)
    } else {
        Operation::Run(settings, steps(numbers, settings))
    };
    let bytes = records.to_vec();
    let grid = any_grid(numbers, given);
    (operation, Buffers::new(bytes, grid))
}

/// A grid that a set can be added to, for lists of additions: with nothing, with something, or almost
/// full.
pub fn present(numbers: &mut Generator) -> (Size, Grid) {
    let size = Size::new(numbers.between(4, 9), numbers.between(4, 9));
    let heaviest = numbers.one_of(&[0, 1 << 42, (1 << 43) - (1 << 38)]);
    let mut grid = Grid::zero(size.nodes());
    fill(&mut grid, || numbers.present_node(heaviest));
    (size, grid)
}

/// An adding scatter of some records onto this grid.
pub fn addition(numbers: &mut Generator, size: Size, grid: &Grid) -> Call {
    let bytes = records(numbers, Caller::Bench, size);
    let grid = grid.clone();
    (Operation::AddingScatter(size), Buffers::new(bytes, grid))
}

/// A set of as many records as wanted on a caller's largest grid; the total mass of the bench's is at its limit.
pub fn full_set(numbers: &mut Generator, caller: Caller, count: usize) -> (Size, Vec<u8>) {
    let most = caller.limits().nodes;
    let size = Size::new(most, most);
    let mut set: Vec<Particle> = (0..count).map(|_| particle(numbers, size)).collect();
    for (k, p) in set.iter_mut().enumerate() {
        p.identifier = (k * 15) as u16;
        p.mass = 32;
        (p.vx, p.vy) = (p.vx / 8, p.vy / 8);
    }
    (size, pack_records(&set))
}
