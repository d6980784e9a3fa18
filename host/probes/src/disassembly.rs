//! What objdump prints, as functions and instructions.

use std::collections::BTreeSet;
use std::path::Path;
use std::process::Command;

/// A function, or code that belongs to none.
#[derive(Clone, Debug, Default, PartialEq, Eq)]
pub struct Part {
    /// Its name, or that of the section or label.
    pub name: String,
    /// Whether a symbol of a function's type stands at its beginning.
    pub is_function: bool,
    /// Its instructions, by rising address.
    pub instructions: Vec<Instruction>,
}

/// One instruction.
#[derive(Clone, Debug, PartialEq, Eq)]
pub struct Instruction {
    /// Its address in its section.
    pub address: u64,
    /// Its name, without prefixes.
    pub name: String,
    /// Its operands, the written one last.
    pub operands: Vec<String>,
}

impl Part {
    /// Whether it is the toolchain's own start of a program: C's `main`, where a crate's is `CRATE::main`, and r11 in none of its
    /// operands. It grows its stack behind a test, for a message, and has nothing in r11 that a loop could lose.
    pub fn is_start(&self) -> bool {
        let named = |operand: &String| operand.contains("%r11");
        let mut operands = self.instructions.iter().flat_map(|one| &one.operands);
        self.is_function && self.name == "main" && !operands.any(named)
    }
}

impl Instruction {
    /// Whether control may go elsewhere than to the next instruction.
    pub fn leaves(&self) -> bool {
        let name = &self.name;
        self.is_jump() || name.starts_with("call") || name.starts_with("ret")
    }

    /// Whether it is a jump.
    pub fn is_jump(&self) -> bool {
        self.name.starts_with('j') || self.name.starts_with("loop")
    }

    /// Where it jumps to, if it is a jump and says so.
    pub fn target(&self) -> Option<u64> {
        let target = self.operands.first().filter(|_| self.is_jump())?;
        u64::from_str_radix(target, 16).ok()
    }

    /// The instruction as text.
    pub fn text(&self) -> String {
        format!("{} {}", self.name, self.operands.join(","))
    }
}

/// What objdump shows before an instruction's name.
const PREFIXES: [&str; 8] = [
    "addr32", "bnd", "cs", "data16", "ds", "lock", "notrack", "rex.W",
];

/// The operands between commas that are not in parentheses.
fn operands(text: &str) -> Vec<String> {
    let mut depth = 0;
    let mut list = vec![String::new()];
    for letter in text.chars() {
        match letter {
            '(' => depth += 1,
            ')' => depth -= 1,
            _ => {}
        }
        if letter == ',' && depth == 0 {
            list.push(String::new());
        } else if let Some(last) = list.last_mut() {
            last.push(letter);
        }
    }
    list.retain(|operand| !operand.is_empty());
    list
}

/// An instruction's line: `ADDRESS:<TAB>PREFIXES NAME OPERANDS # REMARK`; a place is followed by its
/// name in angle brackets.
fn instruction(line: &str) -> Option<Instruction> {
    let (address, text) = line.split_once(":\t")?;
    let address = u64::from_str_radix(address.trim(), 16).ok()?;
    let text = text.split(" # ").next()?;
    let text = text.split(" <").next()?.trim();
    let words: Vec<&str> = text.split_whitespace().collect();
    // A prefix by itself is shown as an instruction.
    let name = words.iter().position(|word| !PREFIXES.contains(word));
    let (name, rest) = words[name.unwrap_or(0)..].split_first()?;
    Some(Instruction {
        address,
        name: (*name).to_owned(),
        operands: operands(&rest.concat()),
    })
}

/// The line before a symbol's instructions: `ADDRESS <NAME>:`.
fn heading(line: &str) -> Option<(u64, &str)> {
    let (address, name) = line.split_once(" <")?;
    let address = u64::from_str_radix(address, 16).ok()?;
    Some((address, name.strip_suffix(">:")?))
}

/// The section and address of a function's line in a symbol table: an address, a blank, seven flags of
/// which the last is the type, a blank and the section, before a tabulator.
fn function_symbol(line: &str) -> Option<(String, u64)> {
    let (left, _) = line.split_once('\t')?;
    let address = u64::from_str_radix(left.get(..16)?, 16).ok()?;
    let is_function = left.get(17..24)?.ends_with('F');
    let section = left.get(25..)?.to_owned();
    is_function.then_some((section, address))
}

/// Reads what `objdump --disassemble --syms` prints. A symbol that is no function's does not end the
/// function that it stands in.
pub fn read(text: &str) -> Vec<Part> {
    let mut functions = BTreeSet::new();
    let mut section = String::new();
    let mut parts: Vec<Part> = Vec::new();
    let mut begins = true;
    for line in text.lines() {
        if line.contains(":     file format ") {
            functions.clear();
        } else if let Some(name) = line.strip_prefix("Disassembly of section ") {
            section = name.trim_end_matches(':').to_owned();
            begins = true;
        } else if let Some((address, name)) = heading(line) {
            let is_function = functions.contains(&(section.clone(), address));
            if begins || is_function {
                parts.push(Part {
                    name: name.to_owned(),
                    is_function,
                    instructions: Vec::new(),
                });
            }
            begins = false;
        } else if let Some(symbol) = function_symbol(line) {
            functions.insert(symbol);
        } else if let (Some(found), Some(part)) = (instruction(line), parts.last_mut()) {
            part.instructions.push(found);
        }
    }
    parts
}

/// Disassembles a file.
///
/// # Errors
///
/// Where objdump cannot be run, or the file has no code for x86-64.
pub fn of(file: &Path) -> Result<Vec<Part>, String> {
    let words = ["--disassemble", "--syms", "--wide", "--no-show-raw-insn"];
    let output = Command::new("objdump").args(words).arg(file).output();
    let output = output.map_err(|error| format!("objdump could not be run: {error}"))?;
    let text = String::from_utf8_lossy(&output.stdout);
    let formats = text
        .lines()
        .filter_map(|line| Some(line.split_once(":     file format ")?.1));
    let formats: BTreeSet<&str> = formats.collect();
    if !output.status.success() || formats != BTreeSet::from(["elf64-x86-64"]) {
        let said = String::from_utf8_lossy(&output.stderr);
        return Err(format!(
            "{}: not code for x86-64: {formats:?} {}",
            file.display(),
            said.trim_end()
        ));
    }
    Ok(read(&text))
}
