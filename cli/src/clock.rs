//! Times: milliseconds since 1970, as the log has them, and dates in UTC, as people read them.

use std::time::{SystemTime, UNIX_EPOCH};

use crate::ending::{system, usage, Fail};
use crate::numbers::decimal;
use crate::text::shown;

const DAY: u64 = 86_400_000;

/// The first millisecond after the year 9999: times from there on are shown as numbers.
const DATES_END: u64 = 253_402_300_800_000;

/// The machine's clock; the option is the one that stands for it.
pub fn now(option: &str) -> Result<u64, Fail> {
    match SystemTime::now().duration_since(UNIX_EPOCH) {
        Ok(since) => Ok(since.as_millis().min(u64::MAX.into()) as u64),
        Err(_) => system(format!("the machine's clock stands before 1970; say the time by {option}")),
    }
}

/// A time that a user typed: milliseconds in decimal digits, 2024-03-01, or 2024-03-01T08:40:00Z (UTC; seconds may have three decimals).
pub fn time(text: &str, what: &str) -> Result<u64, Fail> {
    if text.bytes().all(|byte| byte.is_ascii_digit()) {
        return decimal(text, what);
    }
    let wrong = format!(
        "{what} is 2024-03-01, 2024-03-01T08:40:00Z (UTC) or milliseconds since 1970; \"{}\" is not",
        shown(text)
    );
    date(text).map_or_else(|| usage(wrong), Ok)
}

fn date(text: &str) -> Option<u64> {
    let (day, clock) = match text.split_once('T') {
        Some((day, clock)) => (day, clock.strip_suffix('Z')?),
        None => (text, "00:00:00"),
    };
    let mut parts = day.split('-');
    let (year, month, day) = (digits(parts.next()?, 4)?, digits(parts.next()?, 2)?, digits(parts.next()?, 2)?);
    if parts.next().is_some() || year < 1970 || !(1..=12).contains(&month) || day == 0 || day > days_in(year, month) {
        return None;
    }
    let (clock, thousandths) = match clock.split_once('.') {
        Some((clock, thousandths)) => (clock, digits(thousandths, 3)?),
        None => (clock, 0),
    };
    let mut parts = clock.split(':');
    let (hour, minute, second) = (digits(parts.next()?, 2)?, digits(parts.next()?, 2)?, digits(parts.next()?, 2)?);
    if parts.next().is_some() || hour > 23 || minute > 59 || second > 59 {
        return None;
    }
    let days = days_before(year) + (1..month).map(|month| days_in(year, month)).sum::<u64>() + day - 1;
    Some(days * DAY + ((hour * 60 + minute) * 60 + second) * 1_000 + thousandths)
}

fn digits(text: &str, count: usize) -> Option<u64> {
    (text.len() == count && text.bytes().all(|byte| byte.is_ascii_digit())).then(|| text.parse().ok())?
}

fn is_leap(year: u64) -> bool {
    year % 4 == 0 && (year % 100 != 0 || year % 400 == 0)
}

fn days_in(year: u64, month: u64) -> u64 {
    match month {
        2 if is_leap(year) => 29,
        2 => 28,
        4 | 6 | 9 | 11 => 30,
        _ => 31,
    }
}

/// Days from 1970 to a year, from 1970 on.
fn days_before(year: u64) -> u64 {
    let leaps = |year: u64| year / 4 - year / 100 + year / 400;
    (year - 1970) * 365 + leaps(year - 1) - leaps(1969)
}

/// A time as people read it.
pub fn time_shown(milliseconds: u64) -> String {
    if milliseconds >= DATES_END {
        return format!("{milliseconds}ms");
    }
    let (mut days, rest) = (milliseconds / DAY, milliseconds % DAY);
    let mut year = 1970 + days / 366;
    while days_before(year + 1) <= days {
        year += 1;
    }
    days -= days_before(year);
    let mut month = 1;
    while days >= days_in(year, month) {
        days -= days_in(year, month);
        month += 1;
    }
    let (seconds, thousandths) = (rest / 1_000, rest % 1_000);
    let fraction = if thousandths == 0 { String::new() } else { format!(".{thousandths:03}") };
    let (hour, minute, second) = (seconds / 3_600, seconds / 60 % 60, seconds % 60);
    format!("{year}-{month:02}-{:02}T{hour:02}:{minute:02}:{second:02}{fraction}Z", days + 1)
}

#[cfg(test)]
mod tests {
    use super::*;

    #[test]
    fn dates_are_read_and_shown() {
        for (text, milliseconds) in [
            ("1970-01-01T00:00:00Z", 0),
            ("1970-01-01T00:00:00.001Z", 1),
            ("2000-02-29T23:59:59Z", 951_868_799_000),
            ("2024-03-01T08:40:00Z", 1_709_282_400_000),
            ("2023-12-31T00:00:00Z", 1_703_980_800_000),
            ("2100-03-01T00:00:00Z", 4_107_542_400_000),
            ("9999-12-31T23:59:59.999Z", DATES_END - 1),
        ] {
            assert_eq!(time(text, "T").unwrap(), milliseconds, "{text}");
            assert_eq!(time_shown(milliseconds), text);
        }
        assert_eq!(time("2024-03-01", "T").unwrap(), 1_709_251_200_000);
        assert_eq!(time("01709251200000", "T").unwrap(), 1_709_251_200_000);
        assert_eq!(time_shown(DATES_END), "253402300800000ms");
        assert_eq!(time_shown(u64::MAX), "18446744073709551615ms");
    }

    #[test]
    fn every_day_is_shown_as_it_is_read() {
        for day in (0..DATES_END / DAY).step_by(97) {
            assert_eq!(time(&time_shown(day * DAY), "T").unwrap(), day * DAY);
        }
    }

    #[test]
    fn what_is_no_date_is_said() {
        for wrong in [
            "",
            "2024-3-1",
            "2024-02-30",
            "2023-02-29",
            "2024-13-01",
            "1969-12-31",
            "2024-03-01T08:40Z",
            "2024-03-01T08:40:00",
            "2024-03-01T24:00:00Z",
            "2024-03-01T08:60:00Z",
            "2024-03-01-01",
            "2024-03-01T08:40:00.1Z",
            "now",
            "-5",
            "0x10",
            "2024-00-10",
            "2024-03-00",
        ] {
            assert!(time(wrong, "T").is_err(), "{wrong}");
        }
    }
}
