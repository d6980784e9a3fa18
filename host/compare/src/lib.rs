//! The engine against the reference: inputs, and the same call of both.
//!
//! | module | holds |
//! | --- | --- |
//! | [`calls`] | a call by the engine and by the reference, and whether they agree |
//! | [`inputs`] | inputs of every operation, valid and damaged, from a seeded stream |
//! | [`steps`] | the completed steps of calls, and what demand 3 keeps over them |
//!
//! Two environment variables set what the tests do: `COMPARE_SEED`, the seed, and `COMPARE_COUNT`,
//! the number of inputs for each operation; other tests take a part of it, such as flows a quarter, and the
//! program gets three files for twenty of them.

#![forbid(unsafe_code)]
#![warn(missing_docs)]

pub mod calls;
pub mod inputs;
pub mod steps;

use reference::generator::Generator;

/// A number of the environment, or else this one.
fn setting(name: &str, otherwise: u64) -> u64 {
    std::env::var(name).map_or(otherwise, |text| {
        let number = text.parse();
        number.unwrap_or_else(|_| panic!("{name} is no number: {text}"))
    })
}

/// The seed.
pub fn seed() -> u64 {
    setting("COMPARE_SEED", 1)
}

/// The number of inputs for each operation.
pub fn count() -> u64 {
    setting("COMPARE_COUNT", 20_000)
}

/// The stream of one input: the seed, a name and a number decide it.
pub fn stream(name: &str, number: u64) -> Generator {
    let start = seed() ^ number.wrapping_mul(0xD134_2543_DE82_EF95);
    let mixed = name.bytes().fold(start, |state, byte| {
        Generator::new(state ^ u64::from(byte)).bits()
    });
    Generator::new(mixed)
}
