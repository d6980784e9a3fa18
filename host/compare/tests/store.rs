//! Stores: long lists of calls of both callers, each on the store that the one before left, refused ones
//! included; stores that are damaged; lists with steps and runs between, where demand 3 holds from the bath
//! returned to.

use std::collections::{BTreeMap, BTreeSet};

use compare::calls::agreed;
use compare::steps::{completed, particles, work};
use compare::{count, inputs, seed, stream};
use reference::bath_file::{pack_file, read_file};
use reference::conservation::Ledger;
use reference::generator::Generator;
use reference::limits::{HEADER_LENGTH, MAX_FILE_LENGTH, STORE_LENGTH, STORE_PLACES};
use reference::{Caller, Refusal, Settings, Size, Store};
use vectors::{Answer, Buffers, Operation};

/// The bath last kept under each name and not forgotten.
type Baths = BTreeMap<Vec<u8>, Vec<u8>>;

/// Calls both for a caller; the answer and the buffers. A refused call changes nothing, and an accepted one
/// changes the baths as it says and nothing else.
fn call(
    told: &str,
    caller: Caller,
    operation: Operation,
    before: &Buffers,
    baths: &mut Baths,
) -> (Answer, Buffers) {
    let (answer, after) = agreed(told, caller, operation, before).expect("a call of the engine");
    let Buffers { bytes, name, .. } = before;
    match (operation, &answer) {
        (_, Answer::Refused(_)) => assert!(after == *before, "{told}: a refused call"),
        (Operation::Keep, Answer::Done) => {
            baths.insert(name.clone(), bytes.clone());
            assert!(
                baths.len() <= STORE_PLACES,
                "{told}: more names than places"
            );
        }
        (Operation::Return, Answer::Length(length)) => {
            assert!(
                Some(&after.bytes[..*length]) == baths.get(name).map(Vec::as_slice),
                "{told}"
            );
            assert!(
                after.bytes[*length..] == bytes[*length..],
                "{told}: the buffer's rest"
            );
            assert!(
                after.store == before.store,
                "{told}: a return that writes the store"
            );
        }
        (Operation::Forget, Answer::Done) => {
            assert!(
                baths.remove(name).is_some(),
                "{told}: a name that was not held"
            );
        }
        other => panic!("{told}: {other:?}"),
    }
    (answer, after)
}

/// The store holds these baths and no other.
fn holds(told: &str, store: &[u8], baths: &Baths) {
    let held = Store::read(store).expect("a store of the form");
    let names = held.names().map(<[u8]>::to_vec);
    assert!(names.eq(baths.keys().cloned()), "{told}: other names");
    for (name, file) in baths {
        assert!(
            held.held(name) == Some(file),
            "{told}: another bath under {name:?}"
        );
    }
}

fn number(answer: &Answer) -> u32 {
    answer.refusal().map_or(0, |refusal| refusal.number)
}

/// Either caller.
fn any_caller(numbers: &mut Generator) -> Caller {
    Caller::ALL[numbers.between(0, 1) as usize]
}

/// A list of two thousand calls; the numbers of its answers.
fn list(input: u64) -> BTreeSet<u32> {
    let mut numbers = stream("list of a store", input);
    let (mut store, mut baths) = (vec![0; STORE_LENGTH], Baths::new());
    let mut seen = BTreeSet::new();
    for k in 0..2_000 {
        let told = format!("store, COMPARE_SEED {}, input {input}, call {k}", seed());
        // What the bench takes and the page does not is at times given to the page.
        let (caller, about) = (any_caller(&mut numbers), any_caller(&mut numbers));
        let (operation, before) = inputs::store_call(&mut numbers, about, &store);
        let (answer, after) = call(&told, caller, operation, &before, &mut baths);
        seen.insert(number(&answer));
        store = after.store;
        holds(&told, &store, &baths);
    }
    seen
}

#[test]
fn lists() {
    let seen: BTreeSet<u32> = (0..count().div_ceil(5_000)).flat_map(list).collect();
    let files = [2, 3, 4, 5, 6, 7, 8, 9, 10, 16, 17, 18];
    let stores: BTreeSet<u32> = seen.into_iter().filter(|n| !files.contains(n)).collect();
    assert!(stores.iter().eq(&[0, 1, 22, 23, 24]), "only {stores:?}");
}

/// All refuse the store with 1, whatever the name, the file and the buffer.
fn ill_formed(told: &str, numbers: &mut Generator, store: &[u8]) {
    let given = |_: &mut Generator| store.to_vec();
    let [bench, page] = Caller::ALL;
    let calls = [
        (bench, inputs::keep_in(numbers, bench, given)),
        (page, inputs::keep_in(numbers, page, given)),
        (bench, inputs::return_from(numbers, given)),
        (bench, inputs::forget_in(numbers, given)),
    ];
    for (caller, (operation, before)) in calls {
        let called = agreed(told, caller, operation, &before);
        let (answer, after) = called.expect("a call of the engine");
        assert_eq!(
            answer,
            Answer::Refused(Refusal::at(1, 0)),
            "{told}: {operation:?}"
        );
        assert!(after == before, "{told}: {operation:?} changes something");
    }
}

#[test]
fn damaged_stores() {
    for kind in 0..inputs::STORE_DAMAGES {
        let name = format!("damage {kind} of a store");
        let mut broken = 0;
        let inputs = count().div_ceil(100);
        for input in 0..inputs {
            let mut numbers = stream(&name, input);
            let mut store = inputs::well_formed(&mut numbers);
            assert!(Store::read(&store).is_ok(), "{name}, input {input}");
            inputs::damage_store(&mut numbers, &mut store, kind);
            if Store::read(&store).is_err() {
                let told = format!("{name}, COMPARE_SEED {}, input {input}", seed());
                ill_formed(&told, &mut numbers, &store);
                broken += 1;
            }
        }
        assert!(
            inputs < 100 || broken > inputs / 20,
            "{name}: only {broken} of {inputs}"
        );
    }
}

/// What floats: its settings, its records, and demand 3's sums from the last bath returned to.
struct Floating {
    settings: Settings,
    records: Vec<u8>,
    sums: Ledger,
}

impl Floating {
    fn of(settings: Settings, records: &[u8]) -> Self {
        Floating {
            settings,
            records: records.to_vec(),
            sums: Ledger::new(&particles(records)),
        }
    }

    /// A step or a run; the number of completed steps.
    fn float(&mut self, told: &str, numbers: &mut Generator) -> usize {
        let (caller, size) = (any_caller(numbers), self.settings.size);
        let (operation, before) = inputs::list_call(numbers, caller, size, &self.records);
        let called = agreed(told, caller, operation, &before);
        let (answer, after) = called.expect("a call of the engine");
        let (done, settings) = completed(operation, &answer);
        work(done, settings, &mut self.records, &mut self.sums);
        assert_eq!(after.bytes, self.records, "{told}: the last completed step");
        done
    }

    /// The bath as a file.
    fn file(&self) -> Vec<u8> {
        pack_file(self.settings, 7, &particles(&self.records))
    }

    fn check(&self, told: &str) {
        let kept = self.sums.check(&particles(&self.records));
        kept.unwrap_or_else(|why| panic!("{told}: {why}"));
    }
}

/// One list of floats, keeps, returns and forgets; how many steps and returns it completed.
fn mixed(input: u64) -> (usize, usize) {
    let told = format!("floats, COMPARE_SEED {}, input {input}", seed());
    let mut numbers = stream("floats", input);
    let (size, records) = inputs::accepted_about_the_page(&mut numbers);
    let mut floating = Floating::of(Settings::new(size, 3, -2), &records);
    let (mut store, mut baths) = (vec![0; STORE_LENGTH], Baths::new());
    let (mut steps, mut returns) = (0, 0);
    for _ in 0..numbers.between(4, 24) {
        let name = inputs::name(&mut numbers);
        let (operation, bytes) = match numbers.between(0, 9) {
            0..=4 => {
                steps += floating.float(&told, &mut numbers);
                continue;
            }
            5 | 6 => (Operation::Keep, floating.file()),
            7 | 8 => (Operation::Return, vec![0x5A; MAX_FILE_LENGTH]),
            _ => (Operation::Forget, Vec::new()),
        };
        let before = Buffers::of_store(store, &name, bytes);
        let caller = any_caller(&mut numbers);
        let (answer, after) = call(&told, caller, operation, &before, &mut baths);
        if let Answer::Length(length) = answer {
            floating.check(&told);
            let file = &after.bytes[..length];
            let settings = read_file(file).expect("an accepted file").settings;
            floating = Floating::of(settings, &file[HEADER_LENGTH..]);
            returns += 1;
        }
        store = after.store;
    }
    floating.check(&told);
    holds(&told, &store, &baths);
    (steps, returns)
}

#[test]
fn floats_from_the_bath_returned_to() {
    let (mut steps, mut returns) = (0, 0);
    for input in 0..count().div_ceil(40) {
        let (more_steps, more_returns) = mixed(input);
        steps += more_steps;
        returns += more_returns;
    }
    assert!(steps > 0 && returns > 0, "{steps} steps, {returns} returns");
}

/// A store with the baths that it has to hold.
struct Kept {
    store: Vec<u8>,
    baths: Baths,
}

impl Kept {
    fn nothing() -> Self {
        Kept {
            store: vec![0; STORE_LENGTH],
            baths: Baths::new(),
        }
    }

    /// A call on the store; the number of its answer.
    fn made(&mut self, caller: Caller, operation: Operation, name: &[u8], bytes: Vec<u8>) -> u32 {
        let told = format!("{caller:?} {operation:?} of {name:?}");
        let before = Buffers::of_store(std::mem::take(&mut self.store), name, bytes);
        let (answer, after) = call(&told, caller, operation, &before, &mut self.baths);
        holds(&told, &after.store, &self.baths);
        self.store = after.store;
        number(&answer)
    }

    fn returned(&mut self, name: &[u8]) -> u32 {
        let buffer = vec![0x5A; MAX_FILE_LENGTH];
        self.made(Caller::Bench, Operation::Return, name, buffer)
    }

    fn forgotten(&mut self, name: &[u8]) -> u32 {
        self.made(Caller::Bench, Operation::Forget, name, Vec::new())
    }
}

/// Four of the largest baths, each kept, returned to, replaced and forgotten, and a fifth name refused.
#[test]
fn four_of_the_largest_baths() {
    let names: [&[u8]; 4] = [b"ONE", b"TWO", b"THREE", b"FOUR"];
    let mut numbers = stream("the largest baths", 0);
    let mut largest = |count: usize| {
        let (size, records) = inputs::full_set(&mut numbers, Caller::Bench, count);
        pack_file(Settings::new(size, 1, -1), 9, &particles(&records))
    };
    let mut kept = Kept::nothing();
    let keep =
        |kept: &mut Kept, name: &[u8], file| kept.made(Caller::Bench, Operation::Keep, name, file);
    for name in names {
        assert_eq!(keep(&mut kept, name, largest(4_096)), 0);
    }
    assert_eq!(keep(&mut kept, b"FIVE", largest(4_096)), 24);
    assert_eq!(keep(&mut kept, b"FIVE", largest(4_097)), 3);
    for name in names {
        assert_eq!(kept.returned(name), 0);
        assert_eq!(keep(&mut kept, name, largest(4_095)), 0);
        assert_eq!(kept.returned(name), 0);
    }
    for name in names {
        assert_eq!(kept.forgotten(name), 0);
        assert_eq!(kept.forgotten(name), 23);
    }
    assert!(kept.store == vec![0; STORE_LENGTH]);
}

/// In a store that holds baths of the bench the page keeps its own, beside them and in place of one, and none that
/// is too large for it.
#[test]
fn baths_of_both_callers() {
    let mut numbers = stream("baths of both callers", 0);
    let mut file = |nx: i128, ny: i128, count: usize| {
        let size = Size::new(nx, ny);
        let particles = numbers.particles(size, count, 9, 40);
        pack_file(Settings::new(size, 1, -2), 9, &particles)
    };
    let [bench, page] = Caller::ALL;
    let mut kept = Kept::nothing();
    let mut keep = |caller, name: &[u8], file| kept.made(caller, Operation::Keep, name, file);
    assert_eq!(keep(bench, b"WIDE", file(17, 5, 3)), 0);
    assert_eq!(keep(bench, b"LARGE", file(48, 40, 4_096)), 0);
    for (nx, ny, count, refusal) in [
        (17, 4, 0, 2),
        (4, 17, 0, 2),
        (48, 16, 513, 2),
        (16, 15, 513, 3),
        (4, 5, 4_096, 3),
    ] {
        for name in [&b"WIDE"[..], b"SMALL"] {
            assert_eq!(keep(page, name, file(nx, ny, count)), refusal);
        }
        assert_eq!(keep(page, b"small", file(nx, ny, count)), 22);
    }
    assert_eq!(keep(page, b"SMALL", file(16, 15, 512)), 0);
    assert_eq!(keep(page, b"WIDE", file(15, 16, 511)), 0);
    assert_eq!(keep(bench, b"FOURTH", file(16, 17, 513)), 0);
    assert_eq!(keep(page, b"FIFTH", file(4, 16, 1)), 24);
    assert_eq!(keep(page, b"FIFTH", file(4, 17, 1)), 2);
    for name in [&b"WIDE"[..], b"LARGE", b"SMALL", b"FOURTH"] {
        assert_eq!(kept.returned(name), 0);
        assert_eq!(kept.forgotten(name), 0);
    }
}

/// A store takes baths of different sizes: each file is judged by its own header.
#[test]
fn baths_of_different_sizes() {
    let mut numbers = stream("baths of different sizes", 0);
    let (mut store, mut baths) = (vec![0; STORE_LENGTH], Baths::new());
    for (name, side) in [(&b"A"[..], 4), (b"B", 48), (b"C", 17)] {
        let size = Size::new(side, 52 - side);
        let particles = numbers.particles(size, 30, 63, 2047);
        let file = pack_file(Settings::new(size, 4096, -4096), 10_000, &particles);
        let before = Buffers::of_store(store, name, file);
        let keep = Operation::Keep;
        let (answer, after) = call("sizes", Caller::Bench, keep, &before, &mut baths);
        assert_eq!(answer, Answer::Done);
        store = after.store;
    }
    holds("sizes", &store, &baths);
}
