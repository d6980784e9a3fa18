//! Both callers by the engine on the same inputs, about the limits of each. Where the bath is within the page's limits
//! the answers are the same, and so is every byte that the calls leave; where it is not, the page refuses it with 2 or
//! 3 at their places, and leaves every byte as it was.

use compare::calls::by_engine;
use compare::inputs::{self, MakeFor};
use compare::{count, seed, stream};
use reference::bath_file::LAYOUT;
use reference::bits::unpack;
use reference::limits::{HEADER_LENGTH, RECORD_LENGTH};
use reference::{Caller, Refusal, Size, Store};
use vectors::{Answer, Buffers, Operation};

/// How many inputs came to each: the same outcome, accepted and refused, and the page's 2 and 3.
#[derive(Debug, Default)]
struct Seen {
    accepted: usize,
    refused: usize,
    too_wide: usize,
    too_many: usize,
}

/// Whether each side is 4 to 16.
fn is_small(size: Size) -> bool {
    (4..=16).contains(&size.nx) && (4..=16).contains(&size.ny)
}

/// The page's own refusal, 2 or 3, of a call with a size and a set, if the bench's refusal is this: 2 comes before
/// all else, and 3 after 1.
fn of_a_set(size: Size, records: usize, bench: Option<u32>) -> Option<u32> {
    if !is_small(size) {
        Some(2)
    } else if bench != Some(1) && records > 512 {
        Some(3)
    } else {
        None
    }
}

/// The same of a file: 1 for its header comes before 2; 10 and 18 come between 2 and 3.
fn of_a_file(file: &[u8], bench: Option<u32>) -> Option<u32> {
    let [nx, ny, _, _, count, ..] = unpack(&LAYOUT, file.get(..HEADER_LENGTH)?);
    if !is_small(Size::new(nx, ny)) {
        Some(2)
    } else if !matches!(bench, Some(10 | 18)) && count > 512 {
        Some(3)
    } else {
        None
    }
}

/// The same of any call.
fn of_the_page(operation: Operation, before: &Buffers, bench: Option<u32>) -> Option<u32> {
    let Buffers { bytes, store, .. } = before;
    let records = bytes.len() / RECORD_LENGTH;
    match operation {
        Operation::CheckSet(size)
        | Operation::Totals(size)
        | Operation::Scatter(size)
        | Operation::AddingScatter(size)
        | Operation::Gather(size) => of_a_set(size, records, bench),
        Operation::Update(settings) => of_a_set(settings.size, 0, bench),
        Operation::Step(settings) | Operation::Run(settings, _) => {
            of_a_set(settings.size, records, bench)
        }
        Operation::ReadFile => of_a_file(bytes, bench),
        // The store and the name come first.
        Operation::Keep if Store::read(store).is_err() || bench == Some(22) => None,
        Operation::Keep => of_a_file(bytes, bench),
        other => panic!("{other:?} knows no caller"),
    }
}

/// Makes one call as both; what it came to.
fn both(told: &str, operation: Operation, before: &Buffers, seen: &mut Seen) {
    let [bench, page] = Caller::ALL.map(|caller| {
        let mut after = before.clone();
        let answer = by_engine(caller, operation, &mut after);
        (answer.expect("numbers that the engine takes"), after)
    });
    let refusal = bench.0.refusal().map(|refusal| refusal.number);
    let Some(number) = of_the_page(operation, before, refusal) else {
        assert_eq!(page.0, bench.0, "{told}: {operation:?}");
        assert!(page == bench, "{told}: buffers differ after {operation:?}");
        *match refusal {
            Some(_) => &mut seen.refused,
            None => &mut seen.accepted,
        } += 1;
        return;
    };
    let refusal = Refusal::at(number, 0);
    assert_eq!(page.0.refusal(), Some(refusal), "{told}: {operation:?}");
    if let Answer::Ran(answer) = page.0 {
        assert_eq!(answer.completed, 0, "{told}: {operation:?}");
    }
    assert!(page.1 == *before, "{told}: {operation:?} changes something");
    *match number {
        2 => &mut seen.too_wide,
        _ => &mut seen.too_many,
    } += 1;
}

/// An operation on inputs about the limits of each caller.
fn compare(name: &str, make: MakeFor) -> Seen {
    let mut seen = Seen::default();
    for about in Caller::ALL {
        for number in 0..count().div_ceil(2) {
            let (operation, before) = make(&mut stream(name, number), about);
            let told = format!("{name}, COMPARE_SEED {}, input {number}", seed());
            both(&told, operation, &before, &mut seen);
        }
    }
    seen
}

/// A test for each operation that takes records.
macro_rules! operations {
    ($($operation:ident)*) => {
        $(
            #[test]
            fn $operation() {
                let name = concat!("callers: ", stringify!($operation));
                let seen = compare(name, inputs::$operation);
                let Seen { accepted, refused, too_wide, too_many } = seen;
                let all = [accepted, refused, too_wide, too_many];
                assert!(count() < 5_000 || all.iter().all(|&times| times > 9), "{seen:?}");
            }
        )*
    };
}

operations! {
    check_set totals scatter adding_scatter gather step run read_file keep
}

#[test]
fn update() {
    let seen = compare("callers: update", inputs::update);
    assert!(seen.too_many == 0, "{seen:?}");
    let least = seen.accepted.min(seen.refused).min(seen.too_wide);
    assert!(count() < 5_000 || least > 9, "{seen:?}");
}
