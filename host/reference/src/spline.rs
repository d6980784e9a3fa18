//! The quadratic B-spline along one axis.

use crate::limits::{MAX_OFFSET, MIN_OFFSET, SPACING};
use crate::refusal::{require, Refusal, PLACE};

/// The nearest node of a coordinate: floor((x + 32)/64).
pub fn nearest_node(x: i128) -> i128 {
    (x + SPACING / 2).div_euclid(SPACING)
}

/// The offset of a coordinate from its nearest node, from −32 to 31.
pub fn offset(x: i128) -> i128 {
    x - SPACING * nearest_node(x)
}

/// Weights: those of the lower, nearest and upper node for one offset. Refused: 7.
pub fn weights(q: i128) -> Result<[i128; 3], Refusal> {
    require((MIN_OFFSET..=MAX_OFFSET).contains(&q), PLACE, 0)?;
    Ok([(32 - q).pow(2), 6144 - 2 * q.pow(2), (32 + q).pow(2)])
}

/// The weight of any node of an axis for a coordinate; 0 unless it is one of the nearest three.
pub fn axis_weight(x: i128, node: i128) -> i128 {
    let q = offset(x);
    match node - nearest_node(x) {
        -1 => (32 - q).pow(2),
        0 => 6144 - 2 * q.pow(2),
        1 => (32 + q).pow(2),
        _ => 0,
    }
}

#[cfg(test)]
mod tests {
    use super::*;
    use crate::limits::D;

    #[test]
    fn starred_offsets() {
        assert_eq!(weights(0), Ok([1024, 6144, 1024]));
        assert_eq!(weights(-32), Ok([4096, 4096, 0]));
        assert_eq!(weights(31), Ok([1, 4222, 3969]));
    }

    #[test]
    fn offsets_outside_are_refused() {
        for q in [
            -33,
            32,
            -128,
            127,
            i64::MIN.into(),
            i64::MAX.into(),
            i128::MIN,
            i128::MAX,
        ] {
            assert_eq!(weights(q), Err(Refusal::at(7, 0)));
        }
    }

    #[test]
    fn moments_at_every_offset() {
        for q in -32..=31 {
            let row = weights(q).unwrap();
            let moment = |power: u32| -> i128 {
                (-1..=1)
                    .zip(row)
                    .map(|(node, w)| w * (SPACING * node - q).pow(power))
                    .sum()
            };
            assert_eq!([moment(0), moment(1), moment(2)], [8192, 0, 8192 * D]);
        }
    }

    #[test]
    fn offsets_and_nearest_nodes() {
        for x in -4096..=4096 {
            let q = offset(x);
            assert!((-32..=31).contains(&q));
            assert_eq!(x, 64 * nearest_node(x) + q);
        }
        assert_eq!((nearest_node(31), nearest_node(32)), (0, 1));
    }

    /// The spline as the papers print it: 3/4 − u² up to 1/2, (3/2 − |u|)²/2 up to 3/2, times 8192
    /// with u in 64ths.
    fn printed_spline(distance: i128) -> i128 {
        match distance.abs() {
            size @ 0..=32 => 6144 - 2 * size.pow(2),
            size @ 33..=96 => (96 - size).pow(2),
            _ => 0,
        }
    }

    #[test]
    fn weights_are_the_printed_spline() {
        for x in 0..=3008 {
            for node in 0..48 {
                assert_eq!(axis_weight(x, node), printed_spline(x - 64 * node));
            }
        }
    }
}
