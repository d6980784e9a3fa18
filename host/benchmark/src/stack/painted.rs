//! The proved engine with every call on a stack of its own, so that it can be told how much of it a
//! call takes.
//!
//! The stack is filled with a pattern; after a call, the lowest word that differs tells how deep the
//! call went. What counts is all below the caller's frame: the arguments that are passed on the stack
//! (as many as the call with the most has, and a word that keeps the stack aligned), the return
//! address, and the frames of the library.

use std::arch::naked_asm;
use std::mem::transmute;
use std::sync::atomic::{AtomicPtr, Ordering};
use std::sync::{Mutex, PoisonError};

use engine::ffi;
use engine::library::{Functions, Library};
use reference::Caller;

use crate::library::{functions, page_functions};

/// The length of the stack in words: more than any call needs.
const LENGTH: usize = 2 << 17;
/// How many words are looked at together.
const CHUNK: usize = 512;
const PATTERN: u64 = 0xA5A5_A5A5_A5A5_A5A5;

/// The upper end of the stack that the calls of [`painted`] run on, a multiple of 16.
static TOP: AtomicPtr<u64> = AtomicPtr::new(std::ptr::null_mut());
/// Held by whoever has set it.
static IN_USE: Mutex<()> = Mutex::new(());

/// For a function of the library one that goes to the stack at [`TOP`], with the twelve words on the
/// stack of which up to eleven are arguments, calls it and comes back.
macro_rules! painted {
    ($name:ident $function:ident) => {{
        #[unsafe(naked)]
        unsafe extern "C" fn call() {
            naked_asm!(
                "push rbp",
                "mov rbp, rsp",
                "mov rsp, [rip + {top}]",
                "push [rbp + 104]",
                "push [rbp + 96]",
                "push [rbp + 88]",
                "push [rbp + 80]",
                "push [rbp + 72]",
                "push [rbp + 64]",
                "push [rbp + 56]",
                "push [rbp + 48]",
                "push [rbp + 40]",
                "push [rbp + 32]",
                "push [rbp + 24]",
                "push [rbp + 16]",
                "call {function}",
                "mov rsp, rbp",
                "pop rbp",
                "ret",
                top = sym TOP,
                function = sym ffi::$function,
            )
        }
        transmute::<unsafe extern "C" fn(), _>(call)
    }};
}

// SAFETY, of both: each takes what the function takes that it calls, and answers what that does.
#[allow(clippy::missing_transmute_annotations)]
const BENCH: Functions = unsafe { functions!(painted) };
#[allow(clippy::missing_transmute_annotations)]
const PAGE: Functions = unsafe { page_functions!(painted, BENCH) };

/// The static library as a caller calls it, each call on the stack at [`TOP`].
fn painted(caller: Caller) -> Library {
    let functions = match caller {
        Caller::Bench => BENCH,
        Caller::Page => PAGE,
    };
    // SAFETY: they are the static library's.
    unsafe { Library::new(functions) }
}

/// A stack that is filled with the pattern.
pub struct Stack {
    words: Vec<u64>,
}

impl Stack {
    /// One that no call has used.
    #[allow(clippy::new_without_default)]
    pub fn new() -> Self {
        Stack {
            words: vec![PATTERN; LENGTH],
        }
    }

    /// The answer of a caller's calls of the library that they are given, and how many bytes of stack the deepest
    /// of them takes.
    pub fn depth<T>(&mut self, caller: Caller, calls: impl FnOnce(&Library) -> T) -> (T, usize) {
        let guard = IN_USE.lock().unwrap_or_else(PoisonError::into_inner);
        let end = self.words.as_mut_ptr_range().end;
        let spare = end as usize % 16 / 8;
        TOP.store(end.wrapping_sub(spare), Ordering::SeqCst);
        let answer = calls(&painted(caller));
        drop(guard);
        let used = self.used();
        assert!(
            used > LENGTH / 2,
            "a call that may need more stack than there is"
        );
        self.words[used..].fill(PATTERN);
        (answer, 8 * (LENGTH - spare - used))
    }

    /// The lowest word that differs from the pattern.
    fn used(&self) -> usize {
        let differs = |words: &[u64]| words.iter().fold(0, |all, word| all | (word ^ PATTERN)) != 0;
        let chunk = self.words.chunks(CHUNK).position(differs);
        let start = chunk.map_or(LENGTH, |chunk| CHUNK * chunk);
        let word = self.words[start..].iter().position(|&word| word != PATTERN);
        start + word.unwrap_or(0)
    }
}
