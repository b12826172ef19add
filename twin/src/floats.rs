//! Floats and cells as readable text (docs/REPLAY.md, "Readable text").

use crate::script::CellBits;

/// The most characters of a decimal; a longer one is shown by its bits.
const SHOWN: usize = 24;

fn are_digits(text: &str) -> bool {
    !text.is_empty() && text.bytes().all(|byte| byte.is_ascii_digit())
}

/// The float nearest to a decimal such as `45109.5` or `-0`.
fn decimal(text: &str) -> Option<u64> {
    let magnitude = text.strip_prefix('-').unwrap_or(text);
    let (before, after) = magnitude.split_once('.').unwrap_or((magnitude, "0"));
    if !are_digits(before) || !are_digits(after) {
        return None;
    }
    text.parse().ok().filter(|float: &f64| float.is_finite()).map(f64::to_bits)
}

/// 64 bits as 16 hexadecimal digits.
fn hexadecimal(digits: &str) -> Option<u64> {
    let all = digits.len() == 16 && digits.bytes().all(|digit| digit.is_ascii_hexdigit());
    all.then(|| u64::from_str_radix(digits, 16).ok()).flatten()
}

/// The bits of a float that is written in words; none where it is no float.
pub fn float_bits(text: &str) -> Option<u64> {
    match text {
        "nan" => Some(0x7ff8 << 48),
        "inf" => Some(f64::INFINITY.to_bits()),
        "-inf" => Some(f64::NEG_INFINITY.to_bits()),
        _ => match text.strip_prefix("0x") {
            Some(digits) => hexadecimal(digits),
            None => decimal(text),
        },
    }
}

/// A float in words, from which its bits come back.
pub fn float_words(bits: u64) -> String {
    let plain = f64::from_bits(bits).to_string().to_lowercase();
    if plain.len() <= SHOWN && float_bits(&plain) == Some(bits) {
        plain
    } else {
        format!("0x{bits:016x}")
    }
}

/// A cell in words.
pub fn cell_words(cell: &CellBits) -> String {
    match cell.kind {
        0 => "empty".to_string(),
        1 => format!("number {}", float_words(cell.bits)),
        _ => format!("day {}", float_words(cell.bits)),
    }
}

#[cfg(test)]
mod tests {
    use super::*;

    #[test]
    fn floats_in_words() {
        for (text, bits) in [
            ("0", 0),
            ("-0", 1 << 63),
            ("1", 1023 << 52),
            ("-1", (1 << 63) | (1023 << 52)),
            ("1.5", (1023 << 52) | (1 << 51)),
            ("61.5", (1028 << 52) | (59 << 46)),
            ("0.5", 1022 << 52),
            ("nan", 0x7ff8_0000_0000_0000),
            ("inf", 2047 << 52),
            ("-inf", 4095 << 52),
            ("9007199254740992", 1076 << 52),
            ("0x7ff8000000000001", 0x7ff8_0000_0000_0001),
            ("0xfff8000000000000", 0xfff8_0000_0000_0000),
            ("0x0000000000000001", 1),
            ("0x7e37e43c8800759c", 1e300f64.to_bits()),
        ] {
            assert_eq!(float_bits(text), Some(bits), "{text}");
            assert_eq!(float_words(bits), text);
        }
        assert_eq!(float_bits("61.0"), float_bits("61"));
        assert_eq!(float_bits("0x404e800000000000"), float_bits("61"));
        assert_eq!(float_bits("0X404E800000000000"), None);
    }

    #[test]
    fn no_floats() {
        for text in ["", "-", ".", "1.", ".5", "--1", "+1", "1e3", "NaN", "infinity", "-nan", "1,5"]
        {
            assert_eq!(float_bits(text), None, "{text}");
        }
        for text in ["0x", "0x1", "0x00000000000000001", "0x000000000000000g", "-0x0"] {
            assert_eq!(float_bits(text), None, "{text}");
        }
        assert_eq!(float_bits(&format!("1{}", "0".repeat(309))), None);
    }

    #[test]
    fn cells_in_words() {
        let words = |kind, bits| cell_words(&CellBits { kind, bits });
        assert_eq!(words(0, 7), "empty");
        assert_eq!(words(1, 1 << 63), "number -0");
        assert_eq!(words(2, 61.5f64.to_bits()), "day 61.5");
    }
}
