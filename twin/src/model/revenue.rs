//! Assessed revenue (rules 7.4 to 7.6).

use super::rounding::nearest;
use super::year::{Line, Year, EURO};
use super::{Refusal, AMOUNT_LIMIT};

/// A line in pounds; each euro line is converted and rounded by itself.
fn pounds(line: &Line, rate: u32) -> i128 {
    if line.currency == EURO {
        nearest(line.amount as i128 * rate as i128, 100_000)
    } else {
        line.amount as i128
    }
}

pub fn assessed_revenue(year: &Year) -> Result<i128, Refusal> {
    if !year.in_range() {
        return Err(9);
    }
    let of_kinds = |kinds: &[u8]| -> i128 {
        let lines = year.held_lines().iter();
        lines.filter(|line| kinds.contains(&line.kind)).map(|line| pounds(line, year.rate)).sum()
    };
    let added = of_kinds(&[1, 3, 4, 5, 6, 10]);
    let market = of_kinds(&[2]).max(0);
    let subtracted = of_kinds(&[7, 8, 9, 11]);
    let total = added + market - subtracted;
    if total.abs() > AMOUNT_LIMIT {
        return Err(11);
    }
    Ok(total)
}

#[cfg(test)]
mod tests {
    use super::*;

    fn year(rate: u32, lines: &[(u8, u8, i64)]) -> Year {
        let mut year = Year::fresh();
        year.rate = rate;
        for (place, &(kind, currency, amount)) in lines.iter().enumerate() {
            year.lines[place] = Line { kind, currency, amount };
        }
        year.line_count = lines.len() as u64;
        year
    }

    #[test]
    fn kinds_and_signs() {
        assert_eq!(assessed_revenue(&year(1, &[])), Ok(0));
        for kind in [1, 3, 4, 5, 6, 10, 2] {
            assert_eq!(assessed_revenue(&year(1, &[(kind, 0, 5)])), Ok(5));
        }
        for kind in [7, 8, 9, 11] {
            assert_eq!(assessed_revenue(&year(1, &[(kind, 0, 5)])), Ok(-5));
            assert_eq!(assessed_revenue(&year(1, &[(kind, 0, -5)])), Ok(5));
        }
        assert_eq!(assessed_revenue(&year(1, &[(10, 0, -5)])), Ok(-5));
        assert_eq!(assessed_revenue(&year(1, &[(1, 0, -5)])), Err(9));
    }

    #[test]
    fn market_lines_are_summed_before_they_are_lifted() {
        assert_eq!(assessed_revenue(&year(1, &[(2, 0, 10), (2, 0, -4)])), Ok(6));
        assert_eq!(assessed_revenue(&year(1, &[(2, 0, 4), (2, 0, -10), (1, 0, 1)])), Ok(1));
    }

    #[test]
    fn each_euro_line_is_rounded_by_itself() {
        assert_eq!(assessed_revenue(&year(150_000, &[(1, 1, 1), (1, 1, 1)])), Ok(4));
        assert_eq!(assessed_revenue(&year(150_000, &[(7, 1, 1), (10, 1, -1)])), Ok(-4));
        assert_eq!(assessed_revenue(&year(1, &[(1, 1, 50_000), (1, 1, 50_001)])), Ok(1));
        assert_eq!(assessed_revenue(&year(50_000, &[(1, 1, 1), (1, 1, 1)])), Ok(0));
    }

    #[test]
    fn a_half_of_a_euro_line() {
        for (euros, pounds) in [(1, 0), (3, 2), (5, 2), (7, 4), (-1, 0), (-3, -2), (-5, -2)] {
            assert_eq!(assessed_revenue(&year(50_000, &[(10, 1, euros)])), Ok(pounds));
            assert_eq!(assessed_revenue(&year(50_000, &[(11, 1, euros)])), Ok(-pounds));
        }
        // 666,666,667 x 1.5 is 10^9 + 0.5.
        let most = 1_000_000_000;
        assert_eq!(assessed_revenue(&year(150_000, &[(1, 1, 666_666_667)])), Ok(most));
        assert_eq!(assessed_revenue(&year(150_000, &[(8, 1, 666_666_667)])), Ok(-most));
        assert_eq!(assessed_revenue(&year(150_000, &[(1, 1, 666_666_668)])), Err(11));
    }

    #[test]
    fn only_the_total_is_limited() {
        let most = 1_000_000_000;
        assert_eq!(assessed_revenue(&year(1, &[(1, 0, most)])), Ok(most as i128));
        assert_eq!(assessed_revenue(&year(1, &[(1, 0, most), (3, 0, 1)])), Err(11));
        assert_eq!(assessed_revenue(&year(1, &[(7, 0, most), (8, 0, 1)])), Err(11));
        assert_eq!(
            assessed_revenue(&year(200_000, &[(1, 1, most), (8, 0, most)])),
            Ok(most as i128)
        );
        assert_eq!(assessed_revenue(&year(0, &[(1, 0, most), (3, 0, 1)])), Err(9));
    }
}
