//! The limits and fixed numbers of documents 01 and 02, each named once.

/// Position units between two neighbouring nodes.
pub const SPACING: i128 = 64;
/// Fewest nodes along an axis.
pub const MIN_NODES: i128 = 4;
/// Least coordinate on the grid.
pub const MIN_PLACE: i128 = 32;
/// Least offset from the nearest node.
pub const MIN_OFFSET: i128 = -32;
/// Greatest offset from the nearest node.
pub const MAX_OFFSET: i128 = 31;

/// Bytes of a particle record.
pub const RECORD_LENGTH: usize = 15;
/// Bytes of a bath file's header.
pub const HEADER_LENGTH: usize = 11;
/// Most bytes of a set.
pub const MAX_SET_LENGTH: usize = 61_440;
/// Most bytes of a bath file.
pub const MAX_FILE_LENGTH: usize = HEADER_LENGTH + MAX_SET_LENGTH;

/// Bytes of a name in a store, and most letters of one.
pub const NAME_LENGTH: usize = 8;
/// Places of a store.
pub const STORE_PLACES: usize = 4;
/// Bytes of a place of a store: a name, and room for the longest file.
pub const STORE_PLACE_LENGTH: usize = NAME_LENGTH + MAX_FILE_LENGTH;
/// Bytes of a store.
pub const STORE_LENGTH: usize = STORE_PLACES * STORE_PLACE_LENGTH;

/// Least mass of a particle.
pub const MIN_MASS: i128 = 1;
/// Greatest mass of a particle.
pub const MAX_MASS: i128 = 1023;
/// Greatest size of a particle's velocity on one axis.
pub const MAX_VELOCITY: i128 = 63;
/// Greatest size of an entry of B.
pub const MAX_B: i128 = 2047;
/// Greatest coordinate a record can hold.
pub const MAX_COORDINATE: i128 = 4095;
/// Greatest total mass of a set.
pub const MAX_TOTAL_MASS: i128 = 131_072;

/// Greatest size of gravity on one axis, in 256ths.
pub const MAX_GRAVITY: i128 = 4096;
/// Least width of the band of a sticky or slip edge, in nodes.
pub const MIN_WIDTH: i128 = 1;
/// Greatest width of the band.
pub const MAX_WIDTH: i128 = 3;
/// Greatest drag, in 256ths of a node's velocity.
pub const MAX_DRAG: i128 = 255;
/// Drag is in 256ths of a node's velocity.
pub const DRAG_UNIT: i128 = 256;
/// Most steps of one run.
pub const MAX_STEPS: i128 = 10_000;
/// Greatest node mass that update and the adding scatter take, and that the latter leaves.
pub const MAX_NODE_MASS: i128 = 1 << 43;
/// Greatest size of a present node's momentum on one axis, for each unit of its mass.
pub const MAX_PRESENT_MOMENTUM: i128 = 457_536;
/// Greatest size of a node velocity on one axis, in 256ths.
pub const MAX_NODE_VELOCITY: i128 = 131_072;

/// D of source document 003 for this spline: a quarter of the squared spacing.
pub const D: i128 = SPACING * SPACING / 4;
/// Node velocities are in 256ths of a velocity unit.
pub const NODE_VELOCITY_UNIT: i128 = 256;
/// Total of the nine weights of a particle.
pub const WEIGHT_TOTAL: i128 = 1 << 26;
