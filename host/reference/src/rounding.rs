//! Rounding to nearest, at a half to the even neighbour.

use std::cmp::Ordering;

/// The whole number nearest to `numerator / divisor`; of two equally near, the even one. The divisor
/// is above zero.
pub fn round_to_nearest(numerator: i128, divisor: i128) -> i128 {
    assert!(divisor > 0);
    let floor = numerator.div_euclid(divisor);
    let rest = numerator.rem_euclid(divisor);
    match (2 * rest).cmp(&divisor) {
        Ordering::Less => floor,
        Ordering::Greater => floor + 1,
        Ordering::Equal if floor % 2 == 0 => floor,
        Ordering::Equal => floor + 1,
    }
}

#[cfg(test)]
mod tests {
    use super::round_to_nearest;

    #[test]
    fn halves_go_to_the_even_neighbour() {
        let cases = [
            (1, 2, 0),
            (-1, 2, 0),
            (3, 2, 2),
            (-3, 2, -2),
            (5, 2, 2),
            (-5, 2, -2),
            (7, 2, 4),
            (-7, 2, -4),
        ];
        for (numerator, divisor, nearest) in cases {
            assert_eq!(round_to_nearest(numerator, divisor), nearest);
        }
    }

    #[test]
    fn the_error_is_at_most_a_half_and_at_a_half_the_number_is_even() {
        for divisor in 1..=40 {
            for numerator in -400_i128..=400 {
                let nearest = round_to_nearest(numerator, divisor);
                let error = 2 * (divisor * nearest - numerator);
                assert!(error.abs() <= divisor);
                if error.abs() == divisor {
                    assert!(nearest % 2 == 0);
                }
            }
        }
    }

    #[test]
    fn both_signs_alike() {
        for divisor in 1..=40 {
            for numerator in 0..=400 {
                let nearest = round_to_nearest(numerator, divisor);
                assert_eq!(round_to_nearest(-numerator, divisor), -nearest);
            }
        }
    }

    #[test]
    fn neighbouring_halves_cancel() {
        let far = 1 << 60;
        for k in (-500..=500).chain([-far - 1, -far, far, far + 1]) {
            let sum = round_to_nearest(2 * k + 1, 2) + round_to_nearest(2 * k + 3, 2);
            assert_eq!(sum, 2 * k + 2);
        }
    }
}
