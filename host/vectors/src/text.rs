//! Cases as lines of text.

use std::fmt::{self, Display, Formatter};

use reference::limits::{HEADER_LENGTH, NAME_LENGTH, RECORD_LENGTH};
use reference::limits::{STORE_LENGTH, STORE_PLACE_LENGTH};
use reference::{Caller, Header, Particle, RunAnswer, Settings, Size};

use crate::{Answer, Buffers, Case, Operation};

impl Display for Case {
    fn fmt(&self, f: &mut Formatter) -> fmt::Result {
        let before = named_buffers(&self.operation, &self.before);
        let mut changed = named_buffers(&self.operation, &self.after);
        changed.retain(|buffer| !before.contains(buffer));
        let after = buffers_text(&changed, "unchanged");
        let before = buffers_text(&before, "none");
        let (name, operation, answer) = (&self.name, &self.operation, &self.answer);
        let page = prefix(self.caller);
        write!(
            f,
            "{name} | {page}{operation} | {before} | {answer} | {after}"
        )
    }
}

/// What stands before the name of a caller's operation.
pub fn prefix(caller: Caller) -> &'static str {
    match caller {
        Caller::Bench => "",
        Caller::Page => "page-",
    }
}

/// Numbers, each behind its name.
fn named<const N: usize>(names: [&str; N], numbers: [i128; N]) -> String {
    let words = names.iter().zip(numbers);
    let words: Vec<String> = words.map(|(name, n)| format!("{name} {n}")).collect();
    words.join(" ")
}

fn size_text(size: Size) -> String {
    named(["nx", "ny"], [size.nx, size.ny])
}

fn settings_text(settings: Settings) -> String {
    let Settings {
        size,
        gx,
        gy,
        edge,
        drag,
    } = settings;
    let names = ["gx", "gy", "kind", "width", "drag"];
    let numbers = [gx, gy, edge.kind, edge.width, drag];
    format!("{} {}", size_text(size), named(names, numbers))
}

fn header_text(header: &Header) -> String {
    let names = [
        "nx", "ny", "gx", "gy", "count", "steps", "kind", "width", "drag",
    ];
    named(names, header.values())
}

fn particle_text(particle: &Particle) -> String {
    let names = reference::particle::LAYOUT.map(|field| field.name);
    named(names, particle.fields())
}

impl Display for Operation {
    fn fmt(&self, f: &mut Formatter) -> fmt::Result {
        match *self {
            Operation::ReadRecord => write!(f, "read-record"),
            Operation::WriteRecord(ref p) => write!(f, "write-record {}", particle_text(p)),
            Operation::CheckSet(size) => write!(f, "check-set {}", size_text(size)),
            Operation::Totals(size) => write!(f, "totals {}", size_text(size)),
            Operation::Weights(q) => write!(f, "weights q {q}"),
            Operation::Scatter(size) => write!(f, "scatter {}", size_text(size)),
            Operation::AddingScatter(size) => write!(f, "adding-scatter {}", size_text(size)),
            Operation::Update(settings) => write!(f, "update {}", settings_text(settings)),
            Operation::Gather(size) => write!(f, "gather {}", size_text(size)),
            Operation::Step(settings) => write!(f, "step {}", settings_text(settings)),
            Operation::Run(settings, steps) => {
                write!(f, "run {} steps {steps}", settings_text(settings))
            }
            Operation::ReadFile => write!(f, "read-file"),
            Operation::WriteHeader(ref h) => write!(f, "write-header {}", header_text(h)),
            Operation::Keep => write!(f, "keep"),
            Operation::Return => write!(f, "return"),
            Operation::Forget => write!(f, "forget"),
            Operation::Program => write!(f, "program"),
        }
    }
}

impl Display for Answer {
    fn fmt(&self, f: &mut Formatter) -> fmt::Result {
        match self {
            Answer::Refused(refusal) => {
                write!(f, "refused {} at {}", refusal.number, refusal.place)
            }
            Answer::Done => write!(f, "ok"),
            Answer::Particle(particle) => write!(f, "ok {}", particle_text(particle)),
            Answer::Count(count) => write!(f, "ok {count}"),
            Answer::Totals(totals) => {
                let names = ["mass", "px", "py", "spin", "motion", "marks"];
                write!(f, "ok {}", named(names, totals.values()))
            }
            Answer::Weights([lower, nearest, upper]) => write!(f, "ok {lower} {nearest} {upper}"),
            Answer::Ran(RunAnswer { completed, refusal }) => {
                let (number, place) = refusal.map_or((0, 0), |r| (r.number, r.place));
                write!(f, "done {completed} refusal {number} at {place}")
            }
            Answer::Header(header) => write!(f, "ok {}", header_text(header)),
            Answer::Length(length) => write!(f, "ok {length}"),
            Answer::Text(text) => write!(f, "{}", text.replace('\n', "\\n")),
        }
    }
}

/// The items with equal neighbours as one and a count.
fn runs<T: PartialEq + Copy>(items: &[T]) -> Vec<(T, usize)> {
    items
        .chunk_by(|a, b| a == b)
        .map(|run| (run[0], run.len()))
        .collect()
}

fn run_text(item: String, count: usize) -> String {
    if count > 1 {
        format!("{item}*{count}")
    } else {
        item
    }
}

fn or_none(text: String) -> String {
    if text.is_empty() {
        "none".to_string()
    } else {
        text
    }
}

fn bytes_text(bytes: &[u8]) -> String {
    let words = runs(bytes)
        .into_iter()
        .map(|(byte, count)| run_text(format!("{byte:02X}"), count));
    or_none(words.collect::<Vec<_>>().join(" "))
}

fn numbers_text<T: PartialEq + Copy + Display>(numbers: &[T]) -> String {
    let words = runs(numbers)
        .into_iter()
        .map(|(number, count)| run_text(number.to_string(), count));
    or_none(words.collect::<Vec<_>>().join(","))
}

/// The particle with the next identifier and so many marks more.
fn next(particle: &Particle, more: u8) -> Option<Particle> {
    Some(Particle {
        identifier: particle.identifier.checked_add(1)?,
        marks: particle.marks.checked_add(more)?,
        ..*particle
    })
}

/// How many of the first particles differ in rising identifiers alone, or in identifiers and marks that
/// rise together.
fn group_length(particles: &[Particle]) -> usize {
    let rising = |more: u8| {
        let follows = |pair: &&[Particle]| next(&pair[0], more) == Some(pair[1]);
        1 + particles.windows(2).take_while(follows).count()
    };
    rising(0).max(rising(1))
}

/// A word for each group.
fn groups(mut particles: &[Particle]) -> Vec<String> {
    let mut words = Vec::new();
    while !particles.is_empty() {
        let (group, others) = particles.split_at(group_length(particles));
        words.push(group_text(group));
        particles = others;
    }
    words
}

fn records_text(bytes: &[u8]) -> String {
    let records = bytes.chunks_exact(RECORD_LENGTH);
    let surplus = records.remainder();
    let particles: Vec<Particle> = records
        .map(|record| Particle::unpack(record.try_into().expect("a whole record")))
        .collect();
    let groups = groups(&particles);
    let equal = groups.chunk_by(|a, b| a == b);
    let mut words: Vec<String> = equal
        .map(|run| run_text(run[0].clone(), run.len()))
        .collect();
    if !surplus.is_empty() {
        words.push(format!("+{}", bytes_text(surplus)));
    }
    or_none(words.join(" "))
}

/// Records that differ in rising identifiers and marks alone.
fn group_text(group: &[Particle]) -> String {
    let [first, last] = [&group[0], &group[group.len() - 1]].map(Particle::fields);
    let field = |(&first, &last): (&i128, &i128)| {
        if first == last {
            first.to_string()
        } else {
            format!("{first}..{last}")
        }
    };
    let fields: Vec<String> = first.iter().zip(&last).map(field).collect();
    format!("[{}]", fields.join(" "))
}

/// A buffer's name and contents.
type NamedBuffer = (&'static str, String);

fn file_buffers(file: &[u8]) -> Vec<NamedBuffer> {
    if file.len() <= HEADER_LENGTH {
        return vec![("bytes", bytes_text(file))];
    }
    let (header, records) = file.split_at(HEADER_LENGTH);
    vec![
        ("header", bytes_text(header)),
        ("records", records_text(records)),
    ]
}

/// A header and records; a header alone where no byte follows.
fn file_text(file: &[u8]) -> String {
    let parts = file_buffers(file).into_iter().map(|(_, text)| text);
    parts.collect::<Vec<_>>().join(" ")
}

/// The letters of a name in quotes, if it has letters alone.
fn letters(name: &[u8]) -> Option<String> {
    let all = !name.is_empty() && name.iter().all(u8::is_ascii_uppercase);
    all.then(|| format!("\"{}\"", String::from_utf8_lossy(name)))
}

/// The letters of a name, or the bytes of what is none.
fn name_text(name: &[u8]) -> String {
    letters(name).unwrap_or_else(|| bytes_text(name))
}

/// The bytes to the last one that is not zero.
fn to_last(bytes: &[u8]) -> &[u8] {
    let end = bytes.iter().rposition(|&byte| byte != 0);
    &bytes[..end.map_or(0, |end| end + 1)]
}

/// A place of a store.
fn place_text(place: &[u8]) -> String {
    let used = to_last(place).len();
    if used == 0 {
        return "{}".to_string();
    }
    let (name, room) = place.split_at(NAME_LENGTH);
    let name = letters(to_last(name)).unwrap_or_else(|| bytes_text(name));
    let records = used.saturating_sub(NAME_LENGTH + HEADER_LENGTH);
    let end = HEADER_LENGTH + RECORD_LENGTH * records.div_ceil(RECORD_LENGTH);
    format!("{{{name} {}}}", file_text(&room[..end]))
}

fn store_text(store: &[u8]) -> String {
    if store.len() != STORE_LENGTH {
        return bytes_text(store);
    }
    let places = store.chunks(STORE_PLACE_LENGTH).map(place_text);
    places.collect::<Vec<_>>().join(" ")
}

/// The buffers that an operation is given.
fn named_buffers(operation: &Operation, buffers: &Buffers) -> Vec<NamedBuffer> {
    let Buffers {
        bytes, grid, store, ..
    } = buffers;
    let (store, name) = (
        ("store", store_text(store)),
        ("name", name_text(&buffers.name)),
    );
    let records = ("records", records_text(bytes));
    let mass = ("mass", numbers_text(&grid.mass));
    let (x, y) = (("x", numbers_text(&grid.x)), ("y", numbers_text(&grid.y)));
    match operation {
        Operation::Weights(_) => vec![],
        Operation::ReadRecord | Operation::WriteRecord(_) | Operation::WriteHeader(_) => {
            vec![("bytes", bytes_text(bytes))]
        }
        Operation::ReadFile | Operation::Program => file_buffers(bytes),
        Operation::Keep => vec![store, name, ("file", file_text(bytes))],
        Operation::Return => vec![store, name, ("buffer", file_text(bytes))],
        Operation::Forget => vec![store, name],
        Operation::CheckSet(_) | Operation::Totals(_) => vec![records],
        Operation::Update(_) => vec![mass, x, y],
        Operation::Gather(_) => vec![records, x, y],
        Operation::Scatter(_)
        | Operation::AddingScatter(_)
        | Operation::Step(_)
        | Operation::Run(..) => vec![records, mass, x, y],
    }
}

/// The buffers as text, or the given word where there are none.
fn buffers_text(buffers: &[NamedBuffer], without: &str) -> String {
    if buffers.is_empty() {
        return without.to_string();
    }
    let words = buffers.iter().map(|(name, text)| format!("{name} {text}"));
    words.collect::<Vec<_>>().join(" ")
}
