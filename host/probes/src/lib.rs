//! Stack probe loops in compiled code, and whether each stands at a function's entry.
//!
//! A function with a large frame touches each of its pages before it uses them:
//!
//! ```text
//!         mov    %rsp,%r11
//!         sub    $0xe000,%r11
//!     1:  sub    $0x1000,%rsp
//!         movq   $0x0,(%rsp)
//!         cmp    %r11,%rsp
//!         jne    1b
//! ```
//!
//! At a function's entry r11 holds nothing that anybody needs, by the calling convention. LLVM 22 can
//! place the loop later, behind a test that leaves early, and does not look whether r11 holds a number
//! there; the loop then overwrites it. So a loop has to stand at the entry:
//!
//! - from the function's first instruction to the loop's jump there is nothing but what makes a frame
//!   (the loop, pushes, steps of the stack pointer and of r11, `mov %rsp,%rbp`);
//! - no other jump of the function leads there;
//! - the function is one by its symbol's type, and not a label in another.
//!
//! The toolchain's own start of a program, which has no r11, may have one anywhere.
//!
//! A loop is a jump back over straight code that moves the stack pointer, whatever register ends it.
//! A comparison of the stack pointer anywhere else is refused too, since it may end a loop of another
//! form. The pages of a smaller frame are touched one by one without a loop, which needs no register:
//! that may stand anywhere.
//!
//! | module | holds |
//! | --- | --- |
//! | [`disassembly`] | what objdump prints, as functions and instructions |
//! | [`rule`] | the rule above |

#![forbid(unsafe_code)]
#![warn(missing_docs)]

pub mod disassembly;
pub mod rule;

use std::fmt;
use std::path::Path;

/// What was found in a file.
#[derive(Clone, Debug, Default, PartialEq, Eq)]
pub struct Found {
    /// The number of functions.
    pub functions: usize,
    /// The number of probe loops at entries.
    pub at_entry: usize,
    /// What breaks the rule.
    pub broken: Vec<Broken>,
}

/// A place where the rule is broken.
#[derive(Clone, Debug, PartialEq, Eq)]
pub struct Broken {
    /// The function, or the section where there is none.
    pub function: String,
    /// The address of the loop or of the comparison.
    pub address: u64,
    /// Why it is refused.
    pub why: String,
}

impl fmt::Display for Broken {
    fn fmt(&self, out: &mut fmt::Formatter) -> fmt::Result {
        let Broken {
            function,
            address,
            why,
        } = self;
        write!(out, "{function}, at {address:x}: {why}")
    }
}

/// Looks at an object file, an archive of them, or a program.
///
/// # Errors
///
/// Where objdump cannot be run or does not understand the file, or the file has no function.
pub fn look(file: &Path) -> Result<Found, String> {
    let parts = disassembly::of(file)?;
    let mut found = Found::default();
    for part in &parts {
        found.functions += usize::from(part.is_function);
        if part.is_start() {
            continue;
        }
        for verdict in rule::verdicts(part) {
            match verdict {
                Ok(()) => found.at_entry += 1,
                Err(broken) => found.broken.push(broken),
            }
        }
    }
    if found.functions == 0 {
        return Err(format!("{}: there is no function in it", file.display()));
    }
    Ok(found)
}
