//! Rounding (rule 1.5).

/// To the nearest whole number, halves to the even one of their neighbours.
pub fn nearest(numerator: i128, denominator: i128) -> i128 {
    let below = numerator.div_euclid(denominator);
    let past_half = 2 * numerator.rem_euclid(denominator) - denominator;
    if past_half > 0 || past_half == 0 && below % 2 != 0 {
        below + 1
    } else {
        below
    }
}

#[cfg(test)]
mod tests {
    use super::nearest;

    #[test]
    fn halves_go_to_the_even_neighbour() {
        for (tenths, whole) in [(5, 0), (15, 2), (25, 2), (35, 4), (45, 4)] {
            assert_eq!(nearest(tenths, 10), whole);
            assert_eq!(nearest(-tenths, 10), -whole);
        }
    }

    #[test]
    fn all_else_goes_to_the_nearest() {
        for (tenths, whole) in [(0, 0), (4, 0), (6, 1), (14, 1), (16, 2), (24, 2), (26, 3)] {
            assert_eq!(nearest(tenths, 10), whole);
            assert_eq!(nearest(-tenths, 10), -whole);
        }
        assert_eq!(nearest(1, 3), 0);
        assert_eq!(nearest(2, 3), 1);
        assert_eq!(nearest(-1, 3), 0);
        assert_eq!(nearest(-2, 3), -1);
    }
}
