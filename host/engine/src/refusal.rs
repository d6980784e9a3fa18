//! Refusals: which limit is broken, and where.

use std::error::Error;
use std::fmt;

/// The limits by number, each with its name and its text, which is that of the list in
/// `include/gondwize.h`.
macro_rules! limits {
    ($($number:literal $name:ident $text:literal,)*) => {
        /// A limit, in the order of its number.
        #[derive(Clone, Copy, Debug, PartialEq, Eq, PartialOrd, Ord, Hash)]
        pub enum Limit {
            $(#[doc = concat!(stringify!($number), ": ", $text, ".")] $name = $number,)*
        }

        impl Limit {
            /// All limits, by number.
            pub const ALL: [Limit; [$($number),*].len()] = [$(Limit::$name),*];

            /// What is wrong where the limit is broken.
            #[must_use]
            pub fn text(self) -> &'static str {
                match self {
                    $(Limit::$name => $text,)*
                }
            }
        }
    };
}

limits! {
    1 Length "a record, set, grid, file, buffer or store has the wrong length, or a store the wrong form",
    2 GridSize "nx or ny is not 4 to 48, or for the lesson page 4 to 16",
    3 Count "the count is above 4096, or for the lesson page above 512",
    4 Mass "a mass is not 1 to 1023",
    5 Velocity "a velocity is not -63 to 63",
    6 Affine "an entry of B is not -2047 to 2047",
    7 Position "a position is off the grid, or an offset is not -32 to 31",
    8 Identifier "an identifier is not above the one before",
    9 TotalMass "the mass so far is above 131072",
    10 Gravity "gravity is not -4096 to 4096",
    11 NodeMass "a node's mass is above 2^43, or 0 with a momentum",
    12 NodeVelocity "a node's velocity is not -131072 to 131072",
    13 NewVelocity "a new velocity is not -63 to 63",
    14 NewAffine "a new entry of B is not -2047 to 2047",
    15 NewPosition "a new position is off the grid",
    16 SpareBits "a file's spare bits are not zero",
    17 Steps "more than 10000 steps",
    18 Edge "the edge is neither open with width 0 nor sticky or slip with width 1 to 3",
    19 Drag "drag is above 255",
    20 PresentNode "a present node's mass is above 2^43, or its momentum beyond 457536 times its mass",
    21 AddedMass "a node's mass would pass 2^43",
    22 Name "a name is not 1 to 8 letters A to Z",
    23 NotHeld "the name is not held",
    24 FullStore "four other names are held",
}

impl Limit {
    /// The limit's number, 1 to 24.
    #[must_use]
    pub fn number(self) -> u32 {
        self as u32
    }
}

impl fmt::Display for Limit {
    fn fmt(&self, out: &mut fmt::Formatter) -> fmt::Result {
        out.pad(self.text())
    }
}

/// Why a call is refused.
///
/// ```
/// let refusal = engine::weights(32).expect_err("an offset out of range");
/// assert_eq!((refusal.limit, refusal.place), (engine::Limit::Position, 0));
/// assert_eq!(
///     refusal.to_string(),
///     "refused 7 at 0: a position is off the grid, or an offset is not -32 to 31"
/// );
/// ```
#[must_use]
#[derive(Clone, Copy, Debug, PartialEq, Eq, Hash)]
pub struct Refusal {
    /// The limit that is broken.
    pub limit: Limit,
    /// The record, or the node for [`Limit::NodeMass`], [`Limit::NodeVelocity`],
    /// [`Limit::PresentNode`] and [`Limit::AddedMass`], counted from 0; 0 where there is none.
    pub place: usize,
}

impl Refusal {
    /// The refusal that a number of the static library tells, none for 0.
    pub(crate) fn from_code(code: u64) -> Option<Self> {
        if code == 0 {
            return None;
        }
        let number = (code >> 32) as usize;
        let limit = Limit::ALL.get(number.wrapping_sub(1));
        Some(Refusal {
            limit: *limit.expect("a limit's number"),
            place: code as u32 as usize,
        })
    }

    /// The result of a call without values.
    pub(crate) fn check(code: u64) -> Result<(), Self> {
        Refusal::from_code(code).map_or(Ok(()), Err)
    }
}

impl fmt::Display for Refusal {
    fn fmt(&self, out: &mut fmt::Formatter) -> fmt::Result {
        let Refusal { limit, place } = self;
        write!(out, "refused {} at {place}: {limit}", limit.number())
    }
}

impl Error for Refusal {}
