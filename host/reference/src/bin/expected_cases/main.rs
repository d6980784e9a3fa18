//! Writes what the program `cases` must print for the input that it reads: the same calls of the
//! operations, by the literal sums. The head of `crates/cases/stdin` says how a line is written and
//! what is printed.

mod input;
mod kept;
mod output;

use std::io;

use input::{Line, List, Lists};
use kept::{particle, Kept};
use output::{answer, buffers, bytes, numbers, values};
use reference::{
    adding_scatter_for, check_set_for, gather_for, keep_for, read_file_for, run_for, scatter_for,
    step_for, totals_for, update_for,
};
use reference::{forget, read_record, return_to, weights, write_header, write_record};
use reference::{Caller, Edge, Header, Settings, Size, Sums};

/// So many bytes of a buffer are printed behind a return.
const SHOWN: usize = 48;

const SUMS: Sums = Sums::Literal;

fn settings(numbers: &[i128]) -> Settings {
    let &[nx, ny, gx, gy, kind, width, drag] = numbers else {
        panic!("not seven settings: {numbers:?}");
    };
    Settings::new(Size::new(nx, ny), gx, gy)
        .with_edge(Edge::new(kind, width))
        .with_drag(drag)
}

/// An operation on a record, a set or a file.
fn on_bytes(line: &Line, kept: &mut Kept) -> Option<String> {
    let caller = kept.caller;
    let lent = kept.lent();
    let shown = match (line.name, &line.numbers[..]) {
        ("weights", &[q]) => values('v', weights(q)),
        ("read", []) => values('r', read_record(lent).map(|p| p.fields())),
        ("check", &[nx, ny]) => {
            let found = check_set_for(caller, Size::new(nx, ny), lent);
            values('n', found.map(|count| [count as i128]))
        }
        ("totals", &[nx, ny]) => {
            let found = totals_for(caller, Size::new(nx, ny), lent);
            values('v', found.map(|t| t.values()))
        }
        ("file", []) => values(
            'v',
            read_file_for(caller, lent).map(|header| header.values()),
        ),
        ("write", fields) => answer(write_record(&particle(fields), lent)) + &kept.shown(),
        ("header", given) => {
            let header = Header::of(given.try_into().expect("nine values"));
            answer(write_header(&header, lent)) + &kept.shown()
        }
        _ => return None,
    };
    Some(shown)
}

/// An operation on a grid, whose lists are masses, x and y.
fn on_grid(line: &Line, lists: &mut Lists, kept: &mut Kept) -> Option<String> {
    let caller = kept.caller;
    let lent = kept.lent();
    let mut shown = match (line.name, &line.numbers[..]) {
        ("scatter", &[nx, ny]) => {
            let size = Size::new(nx, ny);
            answer(scatter_for(caller, SUMS, size, lent, &mut lists.lent()))
        }
        ("adding", &[nx, ny]) => {
            let size = Size::new(nx, ny);
            answer(adding_scatter_for(
                caller,
                SUMS,
                size,
                lent,
                &mut lists.lent(),
            ))
        }
        ("update", given) => answer(update_for(caller, settings(given), &mut lists.lent())),
        ("step", given) => {
            let answered = step_for(caller, SUMS, settings(given), lent, &mut lists.lent());
            answer(answered) + &kept.shown()
        }
        ("run", &[ref given @ .., steps]) => {
            let given = settings(given);
            let ran = run_for(caller, SUMS, given, steps, lent, &mut lists.lent());
            let answered = ran.refusal.map_or(Ok(()), Err);
            answer(answered) + &kept.shown() + &numbers('n', &[ran.completed])
        }
        _ => return None,
    };
    shown += &buffers(lists);
    Some(shown)
}

/// A gather, whose lists are x and y.
fn on_velocities(line: &Line, x: &List<i64>, y: &List<i64>, kept: &mut Kept) -> Option<String> {
    let ("gather", &[nx, ny]) = (line.name, &line.numbers[..]) else {
        return None;
    };
    let (caller, size) = (kept.caller, Size::new(nx, ny));
    let gathered = gather_for(caller, SUMS, size, kept.lent(), x.lent(), y.lent());
    Some(answer(gathered) + &kept.shown())
}

/// An operation on the store, whose list is a name.
fn on_store(line: &Line, name: &[u8], kept: &mut Kept) -> Option<String> {
    let caller = kept.caller;
    let (store, lent) = kept.lent_store();
    let shown = match (line.name, &line.numbers[..]) {
        ("keep", []) => answer(keep_for(caller, store, name, lent)),
        ("return", []) => {
            let found = return_to(store, name, lent).map(|length| [length as i128]);
            values('n', found) + &bytes(&lent[..lent.len().min(SHOWN)])
        }
        ("forget", []) => answer(forget(store, name)),
        _ => return None,
    };
    Some(shown + &kept.names())
}

/// What a line's call prints, if there is such a line.
fn called(line: &Line, kept: &mut Kept) -> Option<String> {
    match &line.lists[..] {
        [] => on_bytes(line, kept),
        [name] => on_store(line, name.parse()?.lent(), kept),
        [x, y] => on_velocities(line, &x.parse()?, &y.parse()?, kept),
        [mass, x, y] => {
            let mut lists = Lists {
                mass: mass.parse()?,
                x: x.parse()?,
                y: y.parse()?,
            };
            on_grid(line, &mut lists, kept)
        }
        _ => None,
    }
}

fn main() -> io::Result<()> {
    let mut kept = Kept::new();
    for text in io::read_to_string(io::stdin())?.lines() {
        println!("{text}");
        let Some(line) = Line::of(text) else {
            continue;
        };
        match (line.name, &line.numbers[..]) {
            ("records", &[from, end, ref fields @ ..]) => {
                kept.fill(from as usize, end as usize, fields)
            }
            ("store", &[length, at, byte]) => {
                kept.set(length as usize, at as usize, byte as u8);
            }
            ("page", []) => kept.caller = Caller::Page,
            ("bench", []) => kept.caller = Caller::Bench,
            _ => match called(&line, &mut kept) {
                Some(shown) => print!("{shown}"),
                None => panic!("no such line: {text}"),
            },
        }
    }
    Ok(())
}
