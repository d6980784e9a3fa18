//! The two callers: the bench, and the lesson page beside it, which shows small baths.

/// Who calls an operation.
#[derive(Clone, Copy, Debug, PartialEq, Eq, Hash, PartialOrd, Ord)]
pub enum Caller {
    /// The bench.
    Bench,
    /// The lesson page.
    Page,
}

/// The limits in which the callers differ.
#[derive(Clone, Copy, Debug, PartialEq, Eq)]
pub struct Limits {
    /// Most nodes along an axis.
    pub nodes: i128,
    /// Most records of a set.
    pub records: i128,
}

impl Caller {
    /// Both callers.
    pub const ALL: [Caller; 2] = [Caller::Bench, Caller::Page];

    /// What this caller may give.
    pub const fn limits(self) -> Limits {
        let (nodes, records) = match self {
            Caller::Bench => (48, 4096),
            Caller::Page => (16, 512),
        };
        Limits { nodes, records }
    }
}
