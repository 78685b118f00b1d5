//! Numbers that a user types. The base is ten: zeros in front change nothing and never mean octal, and a letter is no digit.

use crate::ending::{usage, Fail};
use crate::text::shown;

/// A whole number in decimal digits.
pub fn decimal(text: &str, what: &str) -> Result<u64, Fail> {
    if text.is_empty() || !text.bytes().all(|byte| byte.is_ascii_digit()) {
        return usage(format!("{what} is a whole number in decimal digits, and \"{}\" is not", shown(text)));
    }
    // All bytes are digits, so only its size can be wrong.
    text.parse().or_else(|_| usage(format!("{what} is at most {}, and {} is more", u64::MAX, shown(text))))
}

const UNITS: [(&str, u64); 6] =
    [("ms", 1), ("s", 1_000), ("m", 60_000), ("h", 3_600_000), ("d", 86_400_000), ("w", 604_800_000)];

/// A span of time in milliseconds, from a number and its unit: 30d.
pub fn span(text: &str, what: &str) -> Result<u64, Fail> {
    let digits = text.bytes().take_while(|byte| byte.is_ascii_digit()).count();
    let unit = UNITS.iter().find(|(unit, _)| *unit == &text[digits..]);
    match unit {
        Some((_, milliseconds)) if digits > 0 => {
            let number = decimal(&text[..digits], what)?;
            number.checked_mul(*milliseconds).map_or_else(|| usage(format!("{what} {text} is too long")), Ok)
        }
        _ => usage(format!(
            "{what} is a number with its unit, ms, s, m, h, d or w, as in 30d; \"{}\" is not",
            shown(text)
        )),
    }
}

/// A span as its two largest units.
pub fn span_shown(milliseconds: u64) -> String {
    const SHOWN: [(&str, u64); 5] = [("d", 86_400_000), ("h", 3_600_000), ("m", 60_000), ("s", 1_000), ("ms", 1)];
    let mut left = milliseconds;
    let mut parts = Vec::new();
    for (unit, length) in SHOWN {
        if left >= length || (unit == "ms" && parts.is_empty()) {
            parts.push(format!("{}{unit}", left / length));
            left %= length;
        } else if !parts.is_empty() {
            break;
        }
        if parts.len() == 2 {
            break;
        }
    }
    parts.join(" ")
}

#[cfg(test)]
mod tests {
    use super::*;

    #[test]
    fn the_base_is_ten() {
        assert_eq!(decimal("10", "V").unwrap(), 10);
        assert_eq!(decimal("010", "V").unwrap(), 10);
        assert_eq!(decimal("00000000000000000010", "V").unwrap(), 10);
        assert_eq!(decimal("08", "V").unwrap(), 8);
        assert_eq!(decimal("000000000000000000000000000009", "V").unwrap(), 9);
        assert_eq!(decimal("18446744073709551615", "V").unwrap(), u64::MAX);
        for wrong in ["", "0x10", "0o10", "0b1", "-1", "+1", "1e3", " 1", "1 ", "１", "18446744073709551616"] {
            assert!(decimal(wrong, "V").is_err(), "{wrong}");
        }
    }

    #[test]
    fn spans_have_a_unit() {
        assert_eq!(span("30d", "S").unwrap(), 2_592_000_000);
        assert_eq!(span("010h", "S").unwrap(), 36_000_000);
        assert_eq!(span("500ms", "S").unwrap(), 500);
        assert_eq!(span("0s", "S").unwrap(), 0);
        assert_eq!(span("2w", "S").unwrap(), span("14d", "S").unwrap());
        for wrong in ["", "30", "d", "30 d", "-1d", "1.5d", "1y", "30dd", "213503982335d", "é"] {
            assert!(span(wrong, "S").is_err(), "{wrong}");
        }
    }

    #[test]
    fn spans_are_shown_by_two_units() {
        for (milliseconds, expected) in [
            (0, "0ms"),
            (999, "999ms"),
            (1_000, "1s"),
            (61_500, "1m 1s"),
            (86_400_000, "1d"),
            (90_000_000, "1d 1h"),
            (86_460_000, "1d"),
        ] {
            assert_eq!(span_shown(milliseconds), expected);
        }
    }
}
