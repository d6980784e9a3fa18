//! The settings of an update, a step and a run, and their checks.

use crate::refused;

/// The grid's size, gravity, the edge by kind and width, and drag.
#[derive(Clone, Copy)]
pub struct Settings {
    pub nx: usize,
    pub ny: usize,
    pub gx: i64,
    pub gy: i64,
    pub kind: usize,
    pub width: usize,
    pub drag: usize,
}

/// The numbers of the kinds of edge.
pub const OPEN: usize = 0;
pub const STICKY: usize = 1;
pub const SLIP: usize = 2;

impl Settings {
    /// The settings of these numbers.
    #[inline(always)]
    pub fn new(
        nx: usize,
        ny: usize,
        gx: i64,
        gy: i64,
        kind: usize,
        width: usize,
        drag: usize,
    ) -> Self {
        Settings {
            nx,
            ny,
            gx,
            gy,
            kind,
            width,
            drag,
        }
    }

    /// Whether gravity is −4096 to 4096, the edge open with width 0 or sticky or slip with width 1 to
    /// 3, and drag at most 255.
    pub fn check_forces(&self) -> Result<(), u64> {
        if self.gx.unsigned_abs() > 4096 || self.gy.unsigned_abs() > 4096 {
            return Err(refused(10, 0));
        }
        let widths = match self.kind {
            OPEN => 0..=0,
            STICKY | SLIP => 1..=3,
            _ => return Err(refused(18, 0)),
        };
        if !widths.contains(&self.width) {
            return Err(refused(18, 0));
        }
        if self.drag > 255 {
            return Err(refused(19, 0));
        }
        Ok(())
    }
}
