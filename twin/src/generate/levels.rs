//! Levels at the edges of their one rounding (rule 6.2).

use std::ops::RangeInclusive;

use super::random::Random;
use super::values::MOST;
use super::Generator;
use crate::model::book::Book;
use crate::model::levels::target_met;
use crate::model::rounding::nearest;
use crate::script::{Call, YearFields};

/// A pound in a product of three factors in ten-thousandths.
const POUND: i128 = 1_000_000_000_000;
/// The product of a level of exactly 10^9.
const LIMIT: i128 = MOST as i128 * POUND;

/// Sums, each with the product of its three factors, and with indices that may be
/// among them: 10^9 and 0.48; and a half; and 0.49999994, twice; and 0.50000012;
/// and 0.001; 10^9; and 10^9 less a half.
const AT_LIMIT: [(i64, i128, &[u32]); 8] = [
    (961_538_462, 1_040_000_000_000, &[10_400, 20_800]),
    (666_666_667, 1_500_000_000_000, &[15_000, 30_000]),
    (799_999_994, 1_250_000_010_000, &[18_203, 35_643]),
    (399_999_997, 2_500_000_020_000, &[36_406, 35_643]),
    (387_322_954, 2_581_824_780_000, &[30_946, 46_419]),
    (999_900_010, 1_000_100_000_000, &[10_001, 20_002]),
    (MOST, 1_000_000_000_000, &[5_000, 10_000, 10_000, 20_000]),
    (645_161_290, 1_550_000_000_000, &[15_500, 31_000]),
];

/// Where a product lies: at 10^9 or near it; at half a pound; without its index
/// at whole pounds, at half a pound, or below a pound; as high as there is one; or
/// where three roundings give another level.
#[derive(Clone, Copy)]
enum Edge {
    AtLimit,
    NearLimit,
    AtHalf,
    AtPounds,
    AtHalfPounds,
    BelowPound,
    Largest,
    ThreeRoundings,
}

/// What the incentive factor of a level may be: AIC, or AIF.
type Incentives = RangeInclusive<u16>;

/// What a level is the product of, beside the index.
#[derive(Clone, Copy, Default)]
struct Level {
    sum: i64,
    part_year: u16,
    incentive: u16,
}

impl Level {
    /// The product without the index.
    fn without_index(&self) -> i128 {
        self.part_year as i128 * self.sum as i128 * self.incentive as i128
    }

    /// In whole pounds, were it rounded after each factor.
    fn rounded_thrice(&self, pppi: u32) -> i128 {
        let part = nearest(self.part_year as i128 * self.sum as i128, 10_000);
        let with_incentive = nearest(part * self.incentive as i128, 10_000);
        nearest(with_incentive * pppi as i128, 10_000)
    }

    /// In whole pounds, rounded once.
    fn rounded(&self, pppi: u32) -> i128 {
        nearest(self.without_index() * pppi as i128, POUND)
    }
}

/// The greatest common divisor of a factor and 10^12, and a number that times the
/// factor leaves it as rest by 10^12.
fn shared_with_pound(factor: i128) -> (i128, i128) {
    let (mut last, mut next) = ((POUND, 0), (factor % POUND, 1));
    while next.0 != 0 {
        let times = last.0 / next.0;
        (last, next) = (next, (last.0 - times * next.0, last.1 - times * next.1));
    }
    (last.0, last.1)
}

/// The two factors that make a product with an index, in each way that there is.
fn parted(factor: i128, pppi: u32, incentives: &Incentives) -> Vec<Level> {
    let rest = (factor / pppi as i128) as u32;
    if factor % pppi as i128 != 0 {
        return Vec::new();
    }
    let levels = (1..=10_000).filter_map(|part_year| {
        let incentive = u16::try_from(rest / part_year).ok()?;
        let makes = part_year * incentive as u32 == rest && incentives.contains(&incentive);
        makes.then_some(Level { sum: 0, part_year: part_year as u16, incentive })
    });
    levels.collect()
}

impl Random {
    fn level_edge(&mut self) -> Edge {
        match self.below(24) {
            0..=8 => Edge::AtLimit,
            9 => Edge::NearLimit,
            10..=12 => Edge::AtHalf,
            13..=15 => Edge::AtPounds,
            16..=20 => Edge::AtHalfPounds,
            21 => Edge::BelowPound,
            22 => Edge::Largest,
            _ => Edge::ThreeRoundings,
        }
    }

    /// An index for an edge: of half a pound, an odd one leaves a half.
    fn level_pppi(&mut self, edge: Edge) -> u32 {
        match edge {
            Edge::AtLimit => {
                let (_, _, indices) = self.pick(&AT_LIMIT);
                self.pick(indices)
            }
            Edge::AtHalfPounds => self.fair_pppi().min(49_999) | 1,
            Edge::Largest => 50_000,
            _ => self.fair_pppi(),
        }
    }

    /// A factor above 0: round ones, of which halves come, and any.
    fn level_factor(&mut self, range: &Incentives) -> u16 {
        let factor = match self.below(4) {
            0 => self.between(1, *range.end() as i128) as u16,
            1 => self.pick(&[1, 3, 4_999, 9_999, 10_001]),
            2 => self.pick(&[10_000, 10_000, 15_000, 20_000]),
            _ => self.pick(&[625, 1_250, 2_500, 5_000, 7_500]),
        };
        factor.clamp(*range.start(), *range.end())
    }

    fn level_factors(&mut self, incentives: &Incentives) -> Level {
        let part_year = self.level_factor(&(0..=10_000));
        Level { sum: 0, part_year, incentive: self.level_factor(incentives) }
    }

    fn edge_level(&mut self, edge: Edge, pppi: u32, incentives: &Incentives) -> Level {
        match edge {
            Edge::AtLimit => self.level_at_limit(pppi, incentives),
            Edge::NearLimit => self.level_near_limit(pppi, incentives),
            Edge::AtHalf => self.level_at_half(pppi, incentives),
            Edge::AtPounds => self.level_at_pounds(pppi, incentives, 0),
            Edge::AtHalfPounds => self.level_at_pounds(pppi, incentives, POUND / 2),
            Edge::BelowPound => self.level_below_pound(incentives),
            Edge::Largest => Level { sum: MOST, part_year: 10_000, incentive: *incentives.end() },
            Edge::ThreeRoundings => self.level_of_three_roundings(pppi, incentives),
        }
    }

    /// A level of 10^9 and a part of a pound that is known, or of a pound more or
    /// less of its sum; near the limit where the index has none.
    fn level_at_limit(&mut self, pppi: u32, incentives: &Incentives) -> Level {
        let mut fitting = Vec::new();
        for (sum, factor, _) in AT_LIMIT {
            let levels = parted(factor, pppi, incentives);
            fitting.extend((!levels.is_empty()).then(|| Level { sum, ..self.pick(&levels) }));
        }
        if fitting.is_empty() {
            return self.level_near_limit(pppi, incentives);
        }
        let level = self.pick(&fitting);
        Level { sum: (level.sum + self.pick(&[0, 0, 0, -1, 1])).min(MOST), ..level }
    }

    /// The largest sum whose level is 10^9, or the least whose level is more:
    /// of many factors, those whose product is nearest to the half between.
    fn level_near_limit(&mut self, pppi: u32, incentives: &Incentives) -> Level {
        let (half, above) = (LIMIT + POUND / 2, self.one_in(2) as i128);
        let mut closest = Level { sum: MOST, part_year: 10_000, incentive: *incentives.end() };
        let mut least = POUND;
        for _ in 0..60 {
            let part_year = self.between(1, 10_000) as u16;
            let incentive = self.between(*incentives.start() as i128, *incentives.end() as i128);
            let factor = part_year as i128 * incentive.max(1) * pppi as i128;
            let sum = half / factor + above;
            let gap = (half - sum * factor).abs();
            if sum <= MOST as i128 && gap < least {
                least = gap;
                closest = Level { sum: sum as i64, part_year, incentive: incentive.max(1) as u16 };
            }
        }
        closest
    }

    /// A product that ends in half a pound, or as near as it can beside one.
    fn level_at_half(&mut self, pppi: u32, incentives: &Incentives) -> Level {
        let level = self.level_factors(incentives);
        let factor = level.part_year as i128 * level.incentive as i128 * pppi as i128;
        Level { sum: self.sum_beside(factor, POUND / 2, LIMIT / factor), ..level }
    }

    /// A product that is a number of pounds and this rest without its index, or
    /// as near as it can beside that.
    fn level_at_pounds(&mut self, pppi: u32, incentives: &Incentives, rest: i128) -> Level {
        let level = self.level_factors(incentives);
        let factor = level.part_year as i128 * level.incentive as i128;
        Level { sum: self.sum_beside(factor, rest, LIMIT / (factor * pppi as i128)), ..level }
    }

    /// A product that is less than a pound without its index.
    fn level_below_pound(&mut self, incentives: &Incentives) -> Level {
        let level = self.level_factors(incentives);
        let factor = level.part_year as i128 * level.incentive as i128;
        let most = ((POUND - 1) / factor).min(MOST as i128);
        let sum = if self.one_in(2) { most } else { self.between(1, most.min(99)) };
        Level { sum: sum as i64, ..level }
    }

    /// A level that is another one where it is rounded after each factor.
    fn level_of_three_roundings(&mut self, pppi: u32, incentives: &Incentives) -> Level {
        let mut level = Level::default();
        for _ in 0..40 {
            level = self.level_factors(incentives);
            let most = self.pick(&[9, 999, 100_000_000]);
            level.sum = self.between(1, most) as i64;
            if level.rounded(pppi) != level.rounded_thrice(pppi) {
                break;
            }
        }
        level
    }

    /// A sum, at most so large, that times a factor leaves this rest by 10^12, or
    /// the nearest rest on one side of it that such a sum leaves.
    fn sum_beside(&mut self, factor: i128, rest: i128, most: i128) -> i64 {
        let most = most.min(MOST as i128);
        let (shared, times) = shared_with_pound(factor);
        let apart = POUND / shared;
        let side = self.pick(&[-1, 0, 0, 1]);
        let first = if side < 0 { (rest - 1).div_euclid(shared) } else { rest / shared + side };
        let tried = if side == 0 { 1 } else { 3_000 };
        let found = (0..tried)
            .map(|step| ((first + side * step) * times).rem_euclid(apart))
            .find(|sum| *sum <= most);
        match found {
            Some(least) => (least + apart * self.between(0, (most - least) / apart)) as i64,
            None => self.between(0, most) as i64,
        }
    }
}

impl Generator {
    /// Caps and floors at edges, and some of five years in one period.
    pub fn level_work(&mut self) {
        let regime_end = self.put_log_and_years();
        for _ in 0..80 {
            let mut book = self.random.fair_book(regime_end);
            let fields = self.levels_at_edge(&mut book);
            if self.random.one_in(8) {
                self.period_at_edge(fields);
            }
        }
    }

    /// A cap, a floor or both at an edge, of the year at a place and a book. The
    /// year at place 0 may miss its target.
    pub fn levels_at_edge(&mut self, book: &mut Book) -> YearFields {
        let miss = self.random.one_in(2);
        let k = if miss { 0 } else { self.any_k() };
        let number = self.desk.years[k as usize].number;
        let mut fields = self.random.fair_fields(number, 0);
        let edge = self.random.level_edge();
        fields.pppi = self.random.level_pppi(edge);
        if miss {
            book.target_1 = 20_000_000;
            fields.mark = false;
        }
        let missed = !fields.mark && target_met(book, &self.desk.log, number) == Ok(false);
        self.put_cap(edge, book, &mut fields);
        self.put_floor(edge, book, &mut fields, missed);
        self.call(Call::SetYear { k, fields: fields.clone() });
        self.call(Call::SetBook { book: book.clone() });
        self.call(Call::Levels { k });
        fields
    }

    /// A cap at an edge, two times in three; else one that no factor puts past
    /// the limit.
    fn put_cap(&mut self, edge: Edge, book: &mut Book, fields: &mut YearFields) {
        [book.pcl, book.pcac, book.orac] = [83_806_402, 0, 0];
        if self.random.one_in(3) {
            return;
        }
        let level = self.random.edge_level(edge, fields.pppi, &(0..=20_000));
        (fields.pyc, fields.aic) = (level.part_year, level.incentive);
        [book.pcl, book.pcac, book.orac] = self.sum_or_split(level.sum);
    }

    /// The same of a floor, whose factor is 10,000 but on a miss.
    fn put_floor(&mut self, edge: Edge, book: &mut Book, fields: &mut YearFields, missed: bool) {
        [book.pfl, book.pcaf, book.oraf] = [48_807_317, 0, 0];
        if self.random.one_in(3) {
            return;
        }
        let incentives = if missed { 0..=10_000 } else { 10_000..=10_000 };
        let level = self.random.edge_level(edge, fields.pppi, &incentives);
        fields.pyf = level.part_year;
        if missed {
            book.miss_factor = level.incentive;
        }
        [book.pfl, book.pcaf, book.oraf] = self.sum_or_split(level.sum);
    }

    /// A sum in its first entry alone, or in three.
    fn sum_or_split(&mut self, sum: i64) -> [i64; 3] {
        if self.random.one_in(2) {
            return [sum, 0, 0];
        }
        self.random.split_sum(sum as i128)
    }

    /// Five years of one period that are alike.
    fn period_at_edge(&mut self, fields: YearFields) {
        for k in 0..5 {
            let fields = YearFields { number: k + 1, w: 0, ..fields.clone() };
            self.call(Call::SetYear { k, fields });
        }
        self.call(Call::Period);
    }
}

#[cfg(test)]
mod tests {
    use super::*;
    use crate::desk::Desk;
    use crate::generate::tests::seen_in;

    type Edges = Vec<(&'static str, bool)>;

    /// The edges of 11, which is tested on the rounded level.
    fn limit_edges(level: &Level, pppi: u32, number: u8, largest: i128) -> Edges {
        let product = level.without_index() * pppi as i128;
        let (below, past) = (number == 0, number == 11);
        let gap = LIMIT + POUND / 2 - product;
        vec![
            ("10^9", below && product == LIMIT),
            ("10^9 and 0.48", below && product == LIMIT + 480_000_000_000),
            ("10^9 and nearly a half", below && (1..POUND / 100).contains(&gap)),
            ("10^9 and a half", below && gap == 0),
            ("10^9 and more than a half", past && (1..POUND / 100).contains(&-gap)),
            ("10^9 less a half", below && product == LIMIT - POUND / 2),
            ("the largest product", past && product == largest),
        ]
    }

    /// The edges of the rounding. The high part is what the whole pounds without
    /// the index make with it.
    fn half_edges(level: &Level, pppi: u32) -> Edges {
        let product = level.without_index() * pppi as i128;
        let gap = product % POUND - POUND / 2;
        let even = product / POUND % 2 == 0;
        let high_even = level.without_index() / POUND * pppi as i128 % 2 == 0;
        vec![
            ("a half above an even pound", gap == 0 && even && high_even),
            ("a half above an odd pound", gap == 0 && !even && high_even),
            ("a half above an even pound, its high part odd", gap == 0 && even && !high_even),
            ("a half above an odd pound, its high part odd", gap == 0 && !even && !high_even),
            ("just below a half", (-100_000_000..0).contains(&gap)),
            ("just above a half", (1..=100_000_000).contains(&gap)),
        ]
    }

    /// The edges of the product without the index, and of three roundings.
    fn split_edges(level: &Level, pppi: u32) -> Edges {
        let product = level.without_index();
        let (pounds, rest) = (product / POUND, product % POUND);
        let (once, thrice) = (level.rounded(pppi), level.rounded_thrice(pppi));
        vec![
            ("whole pounds without the index", pounds > 0 && rest == 0),
            ("just above whole pounds", pounds > 0 && (1..=100_000_000).contains(&rest)),
            ("just below whole pounds", pounds > 0 && rest >= POUND - 100_000_000),
            ("below a pound", pounds == 0 && rest > 0),
            ("just below a pound", pounds == 0 && rest >= POUND - 100_000_000),
            ("more than three roundings", once > thrice),
            ("less than three roundings", once < thrice),
        ]
    }

    /// What a call of levels tries, of the cap and of the floor.
    fn edges(desk: &Desk, call: &Call, answer: &str) -> Vec<String> {
        let Call::Levels { k } = call else { return Vec::new() };
        let number: u8 = answer.split(' ').next().unwrap().parse().unwrap();
        if ![0, 11].contains(&number) {
            return Vec::new();
        }
        let (book, year) = (&desk.book, &desk.years[*k as usize]);
        let missed = !year.mark && target_met(book, &desk.log, year.number) == Ok(false);
        let aif = if missed { book.miss_factor } else { 10_000 };
        let (cap_sum, floor_sum) = (book.cap_sum() as i64, book.floor_sum() as i64);
        let cap = Level { sum: cap_sum, part_year: year.pyc, incentive: year.aic };
        let floor = Level { sum: floor_sum, part_year: year.pyf, incentive: aif };
        let floor_name = if missed { "floor on a miss" } else { "floor" };
        let mut edges = Vec::new();
        for (name, level, most) in [("cap", cap, 10 * LIMIT), (floor_name, floor, 5 * LIMIT)] {
            let mut tried = limit_edges(&level, year.pppi, number, most);
            if number == 0 {
                tried.extend(half_edges(&level, year.pppi));
                tried.extend(split_edges(&level, year.pppi));
            }
            edges.extend(tried.iter().filter(|edge| edge.1).map(|e| format!("{name}: {}", e.0)));
        }
        edges
    }

    #[test]
    fn the_edges_of_levels_are_frequent() {
        // About as many as there are among 100,000 calls.
        let seen = seen_in(30, |all| all.block("levels", Generator::level_work), edges);
        assert_eq!(seen.len(), 3 * (7 + 6 + 7), "{seen:?}");
        assert!(seen.values().all(|times| *times >= 10), "{seen:?}");
    }
}
