//! Texts as they are shown to people.

/// A text from outside, with control characters spelled out, so that it cannot steer a terminal.
pub fn shown(text: &str) -> String {
    let plain = |c: char| if c.is_control() { c.escape_default().to_string() } else { c.to_string() };
    text.chars().map(plain).collect()
}

/// Bytes from outside as one short line: at most `most` bytes of it.
pub fn excerpt(bytes: &[u8], most: usize) -> String {
    let part = &bytes[..bytes.len().min(most)];
    let more = if bytes.len() > most { "…" } else { "" };
    format!("{}{more}", shown(&String::from_utf8_lossy(part)))
}

/// One file, two files.
pub fn counted(count: usize, one: &str, many: &str) -> String {
    format!("{count} {}", if count == 1 { one } else { many })
}

/// A number with commas between its thousands.
pub fn grouped(number: impl ToString) -> String {
    let digits = number.to_string();
    let mut grouped = String::new();
    for (place, digit) in digits.chars().enumerate() {
        if place > 0 && (digits.len() - place) % 3 == 0 {
            grouped.push(',');
        }
        grouped.push(digit);
    }
    grouped
}

/// A number of bytes, short: three digits and a unit of a thousand times the one before.
pub fn short(bytes: u128) -> String {
    const UNITS: [&str; 8] = ["bytes", "kB", "MB", "GB", "TB", "PB", "EB", "ZB"];
    let (mut value, mut unit) = (bytes as f64, 0);
    while value >= 999.5 && unit + 1 < UNITS.len() {
        value /= 1_000.0;
        unit += 1;
    }
    let decimals = if unit == 0 || value >= 99.95 {
        0
    } else if value >= 9.995 {
        1
    } else {
        2
    };
    format!("{value:.decimals$} {}", UNITS[unit])
}

pub fn yes_or_no(yes: bool) -> &'static str {
    if yes {
        "yes"
    } else {
        "no"
    }
}

#[cfg(test)]
mod tests {
    use super::*;

    #[test]
    fn nothing_steers_a_terminal() {
        assert_eq!(shown("a\u{1b}[2Jb\n\u{85}ü"), "a\\u{1b}[2Jb\\n\\u{85}ü");
        assert_eq!(excerpt(b"abc\xffdef", 4), "abc\u{FFFD}…");
        assert_eq!(excerpt(b"abc", 3), "abc");
    }

    #[test]
    fn numbers_are_grouped() {
        let shortened = [
            short(0),
            short(999),
            short(1_000),
            short(14_000),
            short(999_500),
            short(1_261_105_567),
            short(u128::from(u64::MAX)),
        ];
        assert_eq!(shortened, ["0 bytes", "999 bytes", "1.00 kB", "14.0 kB", "1.00 MB", "1.26 GB", "18.4 EB"]);
        assert_eq!([grouped(0), grouped(999), grouped(1_000), grouped(1_048_576)], ["0", "999", "1,000", "1,048,576"]);
    }
}
