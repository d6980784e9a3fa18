//! The two callers and their limits, which are constants wherever a call names its caller: everything
//! between that call and a check is inlined.

use crate::refused;

/// Who calls.
#[derive(Clone, Copy, Debug, PartialEq, Eq)]
pub enum Caller {
    /// The bench.
    Bench,
    /// The lesson page.
    Page,
}

/// The limits in which the callers differ.
#[derive(Clone, Copy)]
pub struct Limits {
    nodes: usize,
    records: usize,
}

impl Caller {
    #[inline(always)]
    pub(crate) const fn limits(self) -> Limits {
        let (nodes, records) = match self {
            Caller::Bench => (48, 4096),
            Caller::Page => (16, 512),
        };
        Limits { nodes, records }
    }
}

impl Limits {
    /// Whether Nx and Ny are 4 to the most nodes.
    #[inline(always)]
    pub fn check_size(self, nx: usize, ny: usize) -> Result<(), u64> {
        let nodes = 4..=self.nodes;
        if nodes.contains(&nx) && nodes.contains(&ny) {
            Ok(())
        } else {
            Err(refused(2, 0))
        }
    }

    /// Whether there are not too many records.
    #[inline(always)]
    pub fn check_count(self, count: usize) -> Result<(), u64> {
        if count <= self.records {
            Ok(())
        } else {
            Err(refused(3, 0))
        }
    }
}
