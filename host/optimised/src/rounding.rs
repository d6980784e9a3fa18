//! Rounding to nearest, at a half to the even neighbour.

/// A number divided by 2^BITS, to nearest, at a half the even neighbour.
#[inline(always)]
pub fn rounded<const BITS: u32>(number: i64) -> i64 {
    (number + ((1 << (BITS - 1)) - 1) + ((number >> BITS) & 1)) >> BITS
}

#[cfg(test)]
pub mod tests {
    use super::rounded;
    use reference::rounding::round_to_nearest;

    /// Numbers of halves: the first of both signs, and those about the limit of a node's velocity.
    pub fn halves() -> impl Iterator<Item = i64> {
        (-9..=9).chain([-262_145, -262_143, 262_143, 262_145])
    }

    /// As the reference rounds, at halves and beside them.
    fn agrees<const BITS: u32>() {
        for halves in halves() {
            for beside in -2..=2 {
                let number = (halves << (BITS - 1)) + beside;
                let expected = round_to_nearest(number.into(), 1 << BITS);
                assert_eq!(i128::from(rounded::<BITS>(number)), expected, "{number}");
            }
        }
    }

    #[test]
    fn as_the_reference() {
        agrees::<8>();
        agrees::<34>();
    }
}
