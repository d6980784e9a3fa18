//! Where a stack probe loop may stand.

use crate::disassembly::{Instruction, Part};
use crate::Broken;

/// The stack pointer, and the register that a probe loop may use.
const STACK: &str = "%rsp";
const BOUND: &str = "%r11";

/// Whether it writes the stack pointer otherwise than by a push, a pop or a call.
fn moves_stack(instruction: &Instruction) -> bool {
    let compares = ["cmp", "test"]
        .iter()
        .any(|name| instruction.name.starts_with(name));
    !compares
        && instruction.operands.len() > 1
        && instruction.operands.last().is_some_and(|to| to == STACK)
}

/// Whether it compares the stack pointer itself.
fn compares_stack(instruction: &Instruction) -> bool {
    instruction.name.starts_with("cmp")
        && instruction.operands.iter().any(|operand| operand == STACK)
}

/// Whether it makes a frame, and writes no register but the stack pointer, rbp for the frame's base,
/// and r11.
fn makes_frame(instruction: &Instruction) -> bool {
    let operands: Vec<&str> = instruction.operands.iter().map(String::as_str).collect();
    match (instruction.name.as_str(), &operands[..]) {
        ("endbr64" | "nop" | "nopw" | "nopl", _) => true,
        ("push", [from]) => from.starts_with('%'),
        ("mov", [STACK, to]) => ["%rbp", BOUND].contains(to),
        ("lea", [place, BOUND]) => place.ends_with("(%rsp)"),
        ("sub" | "add" | "and", [number, STACK | BOUND]) => number.starts_with('$'),
        ("movq" | "orq", ["$0x0", "(%rsp)"]) => true,
        ("cmp", [STACK, BOUND] | [BOUND, STACK]) => true,
        _ => false,
    }
}

/// The first and the last index of every jump back over straight code that moves the stack pointer.
fn loops(code: &[Instruction]) -> Vec<(usize, usize)> {
    let ends = |last: usize| {
        let target = code[last].target()?;
        let first = code[..=last].iter().rposition(|to| to.address == target)?;
        let body = &code[first..last];
        let straight = body.iter().all(|other| !other.leaves());
        (straight && body.iter().any(moves_stack)).then_some((first, last))
    };
    (0..code.len()).filter_map(ends).collect()
}

/// Why a loop does not stand at the entry, if it does not.
fn misplaced(part: &Part, last: usize) -> Result<(), String> {
    let code = &part.instructions;
    if !part.is_function {
        return Err("a stack probe loop that is in no function".to_owned());
    }
    if let Some(other) = code[..last].iter().find(|other| !makes_frame(other)) {
        let (at, text) = (other.address, other.text());
        return Err(format!("a stack probe loop that is not at the entry: before it ends, `{text}` stands at {at:x}"));
    }
    let entry = code[0].address..=code[last].address;
    let leads = |(k, other): &(usize, &Instruction)| {
        *k != last && other.target().is_some_and(|to| entry.contains(&to))
    };
    match code.iter().enumerate().find(leads) {
        None => Ok(()),
        Some((_, jump)) => Err(format!(
            "a stack probe loop that is not only at the entry: the jump at {:x} leads to it",
            jump.address
        )),
    }
}

/// For every probe loop that it stands at the entry, or why it is refused; and every comparison of the
/// stack pointer that is in no such loop.
pub fn verdicts(part: &Part) -> Vec<Result<(), Broken>> {
    let code = &part.instructions;
    let loops = loops(code);
    let refused = |k: usize, why| Broken {
        function: part.name.clone(),
        address: code[k].address,
        why,
    };
    let placed = loops
        .iter()
        .map(|&(first, last)| misplaced(part, last).map_err(|why| refused(first, why)));
    let outside = |k: &usize| {
        compares_stack(&code[*k]) && !loops.iter().any(|&(first, last)| (first..last).contains(k))
    };
    let compared = (0..code.len()).filter(outside).map(|k| {
        let why = "the stack pointer is compared, and not in a stack probe loop of the known form";
        Err(refused(k, why.to_owned()))
    });
    placed.chain(compared).collect()
}
