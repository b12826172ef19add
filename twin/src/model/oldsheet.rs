//! The text that `oldsheet` prints (rules, section 17).

use super::dates::outage_text;
use super::log::LAST_REGIME_END;
use super::sheet::read;

/// Of a day sheet's bytes: a line for each outage, or one line where the sheet
/// is refused. All bytes count, though `oldsheet` stops reading after 128,271.
pub fn text(bytes: &[u8]) -> String {
    match read(LAST_REGIME_END, bytes) {
        Ok(log) => log.entries().iter().map(|outage| outage_text(outage).unwrap()).collect(),
        Err((refusal, place)) => format!("refused {refusal} at {place}\n"),
    }
}

#[cfg(test)]
mod tests {
    use super::*;
    use crate::generate::Generator;
    use crate::model::log::Slot;
    use crate::model::sheet::{joined, pieces_of};

    #[test]
    fn outages_and_refusals() {
        let mut pieces = pieces_of(&Slot { start: 2_715_810, end: 2_715_930, mw: 500, cause: 1 });
        assert_eq!(text(&joined(&pieces)), "2024-03-30 23:30 2024-03-31 01:30 500\n");
        pieces[1].part.mw = 499;
        assert_eq!(text(&joined(&pieces)), "refused 15 at 13\n");
        assert_eq!(text(&[]), "");
        assert_eq!(text(&[20]), "refused 13 at 0\n");
    }

    #[test]
    fn bytes_behind_the_9867th_piece_change_nothing() {
        let mut generator = Generator::new(13);
        for _ in 0..6 {
            let long = generator.long_sheet();
            let mut more = [&long[..], &[20; 40]].concat();
            let whole = text(&more);
            more.truncate(128_271);
            assert_eq!(text(&more), whole);
        }
    }
}
