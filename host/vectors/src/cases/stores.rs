//! Keep, return, forget.

use std::collections::BTreeMap;

use reference::bath_file::pack_file;
use reference::limits::{HEADER_LENGTH, MAX_FILE_LENGTH, NAME_LENGTH, RECORD_LENGTH};
use reference::limits::{STORE_LENGTH, STORE_PLACE_LENGTH};
use reference::{Caller, Edge, Header, Particle, Settings};

use super::files::read_refusals;
use super::{case, case_for, copies, lone, marked, SMALL};
use crate::{Buffers, Case, Operation};

pub fn cases() -> Vec<Case> {
    [
        refused_everywhere(),
        keep_refusals(),
        keep_cases(),
        return_refusals(),
        return_cases(),
        forget_cases(),
        list(),
        callers_list(),
    ]
    .concat()
}

/// A name with the file that is kept under it.
type Named<'a> = (&'a [u8], Vec<u8>);

/// A bath file of so many particles.
fn file(count: u16) -> Vec<u8> {
    let settings = Settings::new(SMALL, count.into(), -7)
        .with_edge(Edge::slip(1))
        .with_drag(30);
    let light = Particle {
        mass: 32,
        ..lone(0)
    };
    let particles: Vec<Particle> = copies(count, light).into_iter().map(marked).collect();
    pack_file(settings, 12, &particles)
}

/// A place that holds a name and a file, or other bytes.
fn place(name: &[u8], file: &[u8]) -> Vec<u8> {
    let mut place = vec![0; STORE_PLACE_LENGTH];
    place[..name.len()].copy_from_slice(name);
    place[NAME_LENGTH..][..file.len()].copy_from_slice(file);
    place
}

/// A store with these places, `None` for one that is free, and the others free.
fn store(places: &[Option<Named>]) -> Vec<u8> {
    let mut store = Vec::new();
    for held in places {
        let (name, file) = held
            .as_ref()
            .map_or((&[][..], &[][..]), |held| (held.0, &held.1));
        store.extend(place(name, file));
    }
    store.resize(STORE_LENGTH, 0);
    store
}

const NAMES: [&[u8]; 4] = [b"A", b"BATHTUB", b"BATHTUBS", b"Z"];

/// A store of four baths, each with one particle more than the one before.
fn full() -> Vec<u8> {
    let held = |k: usize| Some((NAMES[k], file(k as u16)));
    store(&[held(0), held(1), held(2), held(3)])
}

/// A store of four of the largest baths.
fn fullest() -> Vec<u8> {
    store(&NAMES.map(|name| Some((name, file(4096)))))
}

/// A store whose first and third place are free.
fn with_gaps() -> Vec<u8> {
    store(&[
        None,
        Some((b"BATH", file(2))),
        None,
        Some((b"TUB", file(1))),
    ])
}

/// A buffer that holds what no return leaves.
fn buffer(length: usize) -> Vec<u8> {
    vec![0xA5; length]
}

fn keep(name: &str, store: Vec<u8>, (under, file): Named, stated: Option<(u32, usize)>) -> Case {
    let buffers = Buffers::of_store(store, under, file);
    case(format!("keep/{name}"), Operation::Keep, buffers, stated)
}

fn give_back(name: &str, store: Vec<u8>, under: &[u8], length: usize, number: u32) -> Case {
    let buffers = Buffers::of_store(store, under, buffer(length));
    let stated = (number > 0).then_some((number, 0));
    case(format!("return/{name}"), Operation::Return, buffers, stated)
}

fn forget(name: &str, store: Vec<u8>, under: &[u8], number: u32) -> Case {
    let buffers = Buffers::of_store(store, under, Vec::new());
    let stated = (number > 0).then_some((number, 0));
    case(format!("forget/{name}"), Operation::Forget, buffers, stated)
}

/// A file for each refusal of read a file, with number and place.
fn refused_files() -> BTreeMap<(u32, usize), Vec<u8>> {
    let mut files: BTreeMap<(u32, usize), Vec<u8>> = BTreeMap::new();
    for case in read_refusals() {
        let stated = case.stated.expect("a refusal");
        let file = case.before.bytes;
        if file.len() <= MAX_FILE_LENGTH && files.keys().all(|&(number, _)| number != stated.number)
        {
            files.insert((stated.number, stated.place), file);
        }
    }
    files
}

/// Stores of another length.
fn other_lengths() -> Vec<(String, Vec<u8>)> {
    let lengths = [0, 1, STORE_PLACE_LENGTH, STORE_LENGTH - 1, STORE_LENGTH + 1];
    let of_length = |length| {
        let mut store = with_gaps();
        store.resize(length, 0);
        (format!("length-{length}"), store)
    };
    let mut stores: Vec<(String, Vec<u8>)> = lengths.map(of_length).into();
    stores.push(("zeros-245835".into(), vec![0; STORE_LENGTH - 1]));
    stores
}

/// Places that are neither free nor have the form.
fn broken_places() -> Vec<(String, Vec<u8>)> {
    let two = file(2);
    let with_byte = |mut place: Vec<u8>, at: usize| {
        place[at] = b'A';
        place
    };
    let counting = |count: i128| {
        let header = Header::of([4, 4, 2, -7, count, 12, 2, 1, 30]);
        place(
            b"NAME",
            &[&header.pack(0)[..], &two[HEADER_LENGTH..]].concat(),
        )
    };
    let (free, held) = (vec![0; STORE_PLACE_LENGTH], place(b"NAME", &two));
    let end = NAME_LENGTH + two.len();
    let places = [
        ("free-but-the-first-byte", with_byte(free.clone(), 0)),
        (
            "free-but-a-name's-last-byte",
            with_byte(free.clone(), NAME_LENGTH - 1),
        ),
        (
            "free-but-a-file's-first-byte",
            with_byte(free.clone(), NAME_LENGTH),
        ),
        (
            "free-but-the-last-byte",
            with_byte(free, STORE_PLACE_LENGTH - 1),
        ),
        ("no-letter", place(b"", &two)),
        ("lower-case", place(b"NAMe", &two)),
        ("digit", place(b"NAME2", &two)),
        ("before-A", place(b"NAME@", &two)),
        ("after-Z", place(b"[NAME", &two)),
        ("gap", place(b"NA\0ME", &two)),
        ("gap-first", place(b"\0NAME", &two)),
        ("gap-before-the-last", place(b"NAME\0\0\0S", &two)),
        ("name-alone", place(b"NAME", &[])),
        ("byte-after-the-file", with_byte(held.clone(), end)),
        ("last-byte", with_byte(held, STORE_PLACE_LENGTH - 1)),
        ("count-0-of-2", counting(0)),
        ("count-1-of-2", counting(1)),
        ("count-3-of-2", counting(3)),
        ("count-4096-of-2", counting(4096)),
        ("count-4097-of-2", counting(4097)),
        ("count-8191-of-2", counting(8191)),
        ("name-of-the-second", place(b"BATH", &file(2))),
        ("name-of-the-fourth", place(b"TUB", &file(9))),
    ];
    let refused = refused_files()
        .into_iter()
        .filter(|((number, _), _)| *number != 1);
    let refused =
        refused.map(|((number, _), file)| (format!("file-{number}"), place(b"NAME", &file)));
    let places = places
        .into_iter()
        .map(|(name, place)| (name.to_string(), place));
    places.chain(refused).collect()
}

/// Stores that are refused: of another length, or with a third place that is broken.
fn refused_stores() -> Vec<(String, Vec<u8>)> {
    let with_third = |third: &[u8]| {
        let mut store = with_gaps();
        store[2 * STORE_PLACE_LENGTH..][..STORE_PLACE_LENGTH].copy_from_slice(third);
        store
    };
    let places = broken_places().into_iter();
    let places = places.map(|(name, place)| (name, with_third(&place)));
    let stores = other_lengths().into_iter().chain(places);
    stores
        .map(|(name, store)| (format!("store-{name}"), store))
        .collect()
}

/// Names that are refused.
const REFUSED_NAMES: [(&str, &[u8]); 12] = [
    ("empty", b""),
    ("zero", b"\0"),
    ("trailing-zero", b"BATH\0"),
    ("padded", b"BATH\0\0\0\0"),
    ("gap", b"BA\0TH"),
    ("9-letters", b"BATHTUBSS"),
    ("lower-case", b"bath"),
    ("digit", b"BATH1"),
    ("space", b"BATH TUB"),
    ("before-A", b"@"),
    ("after-Z", b"Z["),
    ("byte-193", b"\xC1"),
];

/// What all three refuse: stores with 1, whatever else is wrong, and then names with 22.
fn refused_everywhere() -> Vec<Case> {
    let mut cases = Vec::new();
    for (name, store) in refused_stores() {
        cases.extend([
            keep(&name, store.clone(), (b"bath", vec![]), Some((1, 0))),
            give_back(&name, store.clone(), b"BATH", MAX_FILE_LENGTH, 1),
            forget(&name, store, b"", 1),
        ]);
    }
    for (name, under) in REFUSED_NAMES {
        let name = format!("name-{name}");
        cases.extend([
            keep(&name, full(), (under, vec![]), Some((22, 0))),
            give_back(&name, with_gaps(), under, MAX_FILE_LENGTH, 22),
            forget(&name, with_gaps(), under, 22),
        ]);
    }
    cases
}

fn keep_refusals() -> Vec<Case> {
    let mut cases = vec![
        keep("a-fifth-name", full(), (b"BATH", file(1)), Some((24, 0))),
        keep(
            "a-fifth-of-the-largest",
            fullest(),
            (b"ZZ", file(4096)),
            Some((24, 0)),
        ),
    ];
    for (stated, file) in refused_files() {
        let name = format!("file-{}-before-24", stated.0);
        cases.push(keep(&name, full(), (b"BATH", file), Some(stated)));
    }
    for length in [
        0,
        HEADER_LENGTH - 1,
        HEADER_LENGTH + RECORD_LENGTH - 1,
        MAX_FILE_LENGTH + 1,
    ] {
        let mut file = file(1);
        file.resize(length, 0);
        cases.push(keep(
            &format!("file-length-{length}"),
            full(),
            (b"A", file),
            Some((1, 0)),
        ));
    }
    cases
}

fn keep_cases() -> Vec<Case> {
    let accepted = |name: &str, store: Vec<u8>, named: Named| keep(name, store, named, None);
    let empty = || store(&[]);
    let largest = || Some((&b"LARGEST"[..], file(4096)));
    vec![
        accepted("in-an-empty-store", empty(), (b"A", file(1))),
        accepted("eight-letters", empty(), (b"ABCXYZAZ", file(2))),
        accepted("no-record", empty(), (b"EMPTY", file(0))),
        accepted("4096-records", empty(), (b"LARGEST", file(4096))),
        accepted("in-the-lowest-free-place", with_gaps(), (b"BATHS", file(3))),
        accepted(
            "in-the-last-free-place",
            store(&[largest(), Some((b"B", file(0))), Some((b"C", file(1)))]),
            (b"D", file(4096)),
        ),
        accepted("replaced-by-fewer", full(), (NAMES[3], file(1))),
        accepted("replaced-by-none", full(), (NAMES[2], file(0))),
        accepted("replaced-by-more", full(), (NAMES[1], file(40))),
        accepted("replaced-by-the-same", full(), (NAMES[3], file(3))),
        accepted("replaced-above-free-places", with_gaps(), (b"TUB", file(5))),
        accepted(
            "4096-replaced-by-1",
            store(&[largest()]),
            (b"LARGEST", file(1)),
        ),
        accepted(
            "replaced-among-the-largest",
            fullest(),
            (NAMES[1], file(4095)),
        ),
    ]
}

fn return_refusals() -> Vec<Case> {
    let mut cases = vec![
        give_back("from-an-empty-store", store(&[]), b"A", MAX_FILE_LENGTH, 23),
        give_back("another-name", full(), b"B", MAX_FILE_LENGTH, 23),
        give_back("a-name's-beginning", full(), b"BATH", MAX_FILE_LENGTH, 23),
        give_back("a-longer-name", full(), b"AA", MAX_FILE_LENGTH, 23),
    ];
    for length in [0, 1, HEADER_LENGTH, MAX_FILE_LENGTH - 1] {
        let name = |what: &str| format!("buffer-{length}{what}");
        cases.extend([
            give_back(&name(""), full(), b"A", length, 1),
            give_back(&name("-before-22"), full(), b"a", length, 1),
            give_back(&name("-before-23"), full(), b"B", length, 1),
        ]);
    }
    cases
}

fn return_cases() -> Vec<Case> {
    let mut cases = vec![
        give_back("4096-records", fullest(), NAMES[2], MAX_FILE_LENGTH, 0),
        give_back("a-longer-buffer", full(), NAMES[2], MAX_FILE_LENGTH + 1, 0),
        give_back(
            "above-a-free-place",
            with_gaps(),
            b"TUB",
            MAX_FILE_LENGTH,
            0,
        ),
    ];
    for (k, name) in NAMES.into_iter().enumerate() {
        let place = format!("from-place-{k}");
        cases.push(give_back(&place, full(), name, MAX_FILE_LENGTH, 0));
    }
    cases
}

fn forget_cases() -> Vec<Case> {
    let mut cases = vec![
        forget("in-an-empty-store", store(&[]), b"A", 23),
        forget("another-name", full(), b"B", 23),
        forget("a-name's-beginning", full(), b"BATH", 23),
        forget("a-longer-name", full(), b"AA", 23),
        forget("the-only-one", store(&[Some((b"A", file(3)))]), b"A", 0),
        forget("4096-records", fullest(), NAMES[2], 0),
        forget("above-a-free-place", with_gaps(), b"TUB", 0),
    ];
    for (k, name) in NAMES.into_iter().enumerate() {
        cases.push(forget(&format!("in-place-{k}"), full(), name, 0));
    }
    cases
}

/// A call of a list: who calls, the operation, its name and its file or buffer.
type ListCall = (Caller, Operation, &'static [u8], Vec<u8>);

fn keeping_for(caller: Caller, name: &'static [u8], count: u16) -> ListCall {
    (caller, Operation::Keep, name, file(count))
}

fn keeping(name: &'static [u8], count: u16) -> ListCall {
    keeping_for(Caller::Bench, name, count)
}

fn returning(name: &'static [u8]) -> ListCall {
    let buffer = buffer(MAX_FILE_LENGTH);
    (Caller::Bench, Operation::Return, name, buffer)
}

fn forgetting(name: &'static [u8]) -> ListCall {
    (Caller::Bench, Operation::Forget, name, Vec::new())
}

/// Calls with their refusals, 0 for none; each gets the store that the one before left.
fn list_of(list: &str, calls: impl IntoIterator<Item = (ListCall, u32)>) -> Vec<Case> {
    let mut store = store(&[]);
    let mut cases = Vec::new();
    for (number, (call, refusal)) in calls.into_iter().enumerate() {
        let (caller, operation, under, bytes) = call;
        let stated = (refusal > 0).then_some((refusal, 0));
        let buffers = Buffers::of_store(store, under, bytes);
        let name = format!("list/{list}/{number}");
        let case = case_for(caller, name, operation, buffers, stated);
        store = case.after.store.clone();
        cases.push(case);
    }
    cases
}

/// Float, return and float differently.
fn list() -> Vec<Case> {
    let calls = [
        (keeping(b"START", 3), 0),
        (keeping(b"CALM", 5), 0),
        (returning(b"START"), 0),
        (keeping(b"WILD", 2), 0),
        (keeping(b"LAST", 1), 0),
        (keeping(b"MORE", 1), 24),
        (forgetting(b"CALM"), 0),
        (returning(b"CALM"), 23),
        (keeping(b"MORE", 4), 0),
        (keeping(b"START", 0), 0),
        (returning(b"START"), 0),
        (returning(b"MORE"), 0),
        (forgetting(b"START"), 0),
        (forgetting(b"START"), 23),
        (keeping(b"CALM", 6), 0),
        (returning(b"CALM"), 0),
        (keeping(b"START", 3), 24),
    ];
    list_of("store", calls)
}

/// Both callers in one store.
fn callers_list() -> Vec<Case> {
    let page = |name, count| keeping_for(Caller::Page, name, count);
    let calls = [
        (keeping(b"LARGE", 4096), 0),
        (page(b"SMALL", 512), 0),
        (page(b"LARGE", 513), 3),
        (returning(b"LARGE"), 0),
        (page(b"LARGE", 2), 0),
        (returning(b"LARGE"), 0),
        (keeping(b"SMALL", 513), 0),
        (page(b"OTHER", 1), 0),
        (returning(b"SMALL"), 0),
        (forgetting(b"SMALL"), 0),
        (page(b"SMALL", 0), 0),
        (returning(b"SMALL"), 0),
    ];
    list_of("store-of-both", calls)
}
