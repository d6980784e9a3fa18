//! Refusals: the number of the limit that is broken and the place where.

/// A length: of a record, a set, a file, a grid buffer or a return's buffer; or a store that is not of its
/// length and form.
pub const LENGTH: u32 = 1;
/// Nx or Ny out of range.
pub const SIZE: u32 = 2;
/// A count of records above the caller's limit.
pub const COUNT: u32 = 3;
/// A particle's mass.
pub const MASS: u32 = 4;
/// A particle's velocity.
pub const VELOCITY: u32 = 5;
/// An entry of a particle's B.
pub const AFFINE: u32 = 6;
/// A place off the grid, a coordinate that no record holds, or an offset out of range.
pub const PLACE: u32 = 7;
/// An identifier not above the one before.
pub const IDENTIFIER: u32 = 8;
/// Mass so far above the limit.
pub const TOTAL_MASS: u32 = 9;
/// Gravity out of range.
pub const GRAVITY: u32 = 10;
/// A node's mass too large, or momentum without mass.
pub const NODE_MASS: u32 = 11;
/// A node's velocity out of range.
pub const NODE_VELOCITY: u32 = 12;
/// A gathered velocity out of range.
pub const NEW_VELOCITY: u32 = 13;
/// A gathered entry of B out of range.
pub const NEW_AFFINE: u32 = 14;
/// A new place off the grid.
pub const NEW_PLACE: u32 = 15;
/// Spare bits of the header not zero.
pub const SPARE: u32 = 16;
/// More than 10,000 steps.
pub const STEPS: u32 = 17;
/// A kind of edge that there is not, or a width that its kind does not have.
pub const EDGE: u32 = 18;
/// Drag above 255.
pub const DRAG: u32 = 19;
/// A present node's mass too large, or its momentum too large for its mass.
pub const PRESENT_NODE: u32 = 20;
/// A node's mass that would be too large.
pub const ADDED_MASS: u32 = 21;
/// A name that is not 1 to 8 letters A to Z.
pub const NAME: u32 = 22;
/// A name that a store does not hold.
pub const NOT_HELD: u32 = 23;
/// A store that holds four other names.
pub const FULL_STORE: u32 = 24;

/// What was refused: the number in document 01 or 02, and the record or node counted from 0, or 0 where
/// there is none.
#[derive(Clone, Copy, Debug, PartialEq, Eq, Hash)]
pub struct Refusal {
    /// The limit's number.
    pub number: u32,
    /// The record; for 11, 12, 20 and 21 the node; else 0.
    pub place: usize,
}

impl Refusal {
    /// The refusal with this number at this place.
    pub fn at(number: u32, place: usize) -> Self {
        Refusal { number, place }
    }
}

/// Refuses with the given number and place unless the condition holds.
pub(crate) fn require(holds: bool, number: u32, place: usize) -> Result<(), Refusal> {
    if holds {
        Ok(())
    } else {
        Err(Refusal::at(number, place))
    }
}

/// Whether a number is at most the limit in size.
pub(crate) fn within(number: i128, limit: i128) -> bool {
    (-limit..=limit).contains(&number)
}
