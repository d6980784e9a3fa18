//! The quadratic B-spline along one axis.

use std::hint::black_box;
use std::ops::{Add, Mul, Sub};

use crate::refused;

/// The weights of the lower, the nearest and the upper node for an offset.
fn row<N>(q: N) -> [N; 3]
where
    N: Copy + From<i16> + Add<Output = N> + Sub<Output = N> + Mul<Output = N>,
{
    let [half, most, two] = [32, 6144, 2].map(N::from);
    [
        (half - q) * (half - q),
        most - two * q * q,
        (half + q) * (half + q),
    ]
}

/// The weights of the lower, of the nearest and of the upper node, each for every offset from −32 on.
pub type Table = [[i16; 64]; 3];

/// The table, for calls that look many weights up.
#[inline(never)]
pub fn table() -> Table {
    // Hidden from the compiler, which else makes constants of the weights.
    let first = black_box(-32i16);
    let mut table = [[0; 64]; 3];
    for (k, q) in (0..64).zip(first..) {
        for (column, weight) in table.iter_mut().zip(row(q)) {
            column[k] = weight;
        }
    }
    table
}

/// Where a particle is along one axis: its nearest node, its offset from it and the weights.
#[derive(Clone, Copy)]
pub struct Place {
    pub node: usize,
    pub q: i64,
    pub weights: [i64; 3],
}

impl Place {
    /// The place of a coordinate on the grid.
    #[inline(always)]
    pub fn of(x: i32, table: &Table) -> Self {
        let shifted = (x + 32) as usize;
        Place {
            node: shifted / 64,
            q: (shifted % 64) as i64 - 32,
            weights: [0, 1, 2].map(|column: usize| table[column][shifted % 64].into()),
        }
    }
}

/// Weights: three values.
pub fn weights(q: i64, values: &mut [i64; 3]) -> u64 {
    if !(-32..=31).contains(&q) {
        return refused(7, 0);
    }
    *values = row(q);
    0
}

#[cfg(test)]
mod tests {
    use super::{row, table};

    #[test]
    fn all_rows() {
        let table = table();
        for (k, q) in (0..64).zip(-32..) {
            let filled = table.map(|column| i64::from(column[k]));
            assert_eq!(filled, row(q), "{q}");
        }
    }
}
