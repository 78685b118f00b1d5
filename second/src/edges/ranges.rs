//! C-14: a number out of range is told from no number, and a file that has one is refused.

use super::*;
use crate::manifests;
use crate::query::{self, read_number, Number};

const OUT: [&str; 6] = [
    "9223372036854775808",
    "-9223372036854775809",
    "99999999999999999999",
    "-99999999999999999999",
    "09223372036854775808",
    "18446744073709551617",
];

const NO_NUMBERS: [&str; 7] = [
    "100000000000000000000",
    "009223372036854775808",
    "-009223372036854775809",
    "+9223372036854775808",
    "9223372036854775808 ",
    "9223372036854775808.0",
    "-",
];

fn condition(column: &str, kind: &str, op: &str, value: &str) -> String {
    format!("{{\"column\":\"{column}\",\"as\":\"{kind}\",\"op\":\"{op}\",\"value\":\"{value}\"}}")
}

/// A file under the columns n and m.
fn file(path: &str, n: &str) -> String {
    add_with_values(path, 1, &format!("{{\"n\":\"{n}\",\"m\":\"5\"}}"))
}

/// The rows of the latest version under these conditions, or the refusal number negated.
fn rows(conditions: &[String], bodies: &[String]) -> i64 {
    let mut files = log_of(bodies);
    files[0].1 = meta_data("t", &["n", "m"]);
    let query = format!("[{}]", conditions.join(","));
    read(Ask::Latest, &query, &bundle_of(&files))
        .map_or_else(|refusal| -(refusal.number as i64), |reading| reading.rows as i64)
}

#[test]
fn shapes_and_ends() {
    assert!(OUT.iter().all(|text| read_number(text.as_bytes()) == Number::OutOfRange));
    assert!(NO_NUMBERS.iter().all(|text| read_number(text.as_bytes()) == Number::None));
    assert_eq!(read_number(b"9223372036854775807"), Number::InRange(i64::MAX));
    assert_eq!(read_number(b"-09223372036854775808"), Number::InRange(i64::MIN));
}

#[test]
fn a_file_out_of_range_is_refused_under_a_number_condition_alone() {
    let any = condition("n", "number", "ge", "-9223372036854775808");
    for out in OUT {
        let body = file("a", "7") + &file("b", out);
        assert_eq!(rows(&[any.clone()], &[body.clone()]), -18, "{out}");
        assert_eq!(rows(&[condition("m", "number", "eq", "6"), any.clone()], &[body.clone()]), -18);
        assert_eq!(rows(&[any.clone(), condition("m", "text", "eq", "6")], &[body.clone()]), -18);
        assert_eq!(rows(&[condition("n", "text", "ge", "")], &[body.clone()]), 2);
        assert_eq!(rows(&[condition("m", "number", "eq", "5")], &[body.clone()]), 2);
        assert_eq!(rows(&[], &[body.clone()]), 2);
        assert_eq!(rows(&[any.clone()], &[body.clone(), remove("b")]), 1);
        assert_eq!(rows(&[any.clone()], &[body.clone(), file("b", "8")]), 2);
        assert_eq!(rows(&[any.clone(), condition("x", "number", "eq", "6")], &[body.clone()]), -11);
        assert_eq!(rows(&[any.clone()], &[body + &protocol(4, 4)]), -8);
    }
    for none in NO_NUMBERS {
        assert_eq!(rows(&[any.clone()], &[file("a", "7") + &file("b", none)]), 1, "{none}");
    }
}

#[test]
fn a_column_renamed_away_is_not_looked_at() {
    let any = |column: &str| condition(column, "number", "ge", "0");
    let body = file("a", OUT[0]);
    assert_eq!(rows(&[any("m")], &[body.clone(), meta_data("t", &["m"])]), 1);
    assert_eq!(rows(&[any("n")], &[body.clone(), meta_data("t", &["m"])]), -11);
    assert_eq!(rows(&[any("n")], &[body, meta_data("t", &["m"]), meta_data("t", &["m", "n"])]), -18);
}

#[test]
fn a_query_value_out_of_range_is_malformed() {
    for out in OUT {
        let query = |kind: &str| format!("[{}]", condition("n", kind, "eq", out));
        assert!(query::read(query("number").as_bytes()).is_none());
        assert!(query::read(query("text").as_bytes()).is_some());
    }
}

#[test]
fn a_bound_out_of_range_keeps_its_manifest() {
    let kept = |min: &str, max: &str, conditions: &[String]| {
        let bounds = format!("{{\"n\":{{\"min\":\"{min}\",\"max\":\"{max}\"}},\"m\":{{\"min\":\"1\",\"max\":\"2\"}}}}");
        let state = format!("{{\"manifests\":[{{\"path\":\"p\",\"partitionBounds\":{bounds}}}]}}");
        manifests::keep(format!("[{}]", conditions.join(",")).as_bytes(), state.as_bytes(), &mut [7; 256])
    };
    for (min, max, op) in [("-9223372036854775809", "5", "gt"), ("8", OUT[0], "lt"), (OUT[0], OUT[2], "eq")] {
        let other = condition("m", "number", "gt", "2");
        assert_eq!(kept(min, max, &[condition("n", "number", op, "7")]), Ok(1));
        assert_eq!(kept(min, max, &[condition("n", "number", op, "7"), other.clone()]), Ok(0));
        assert_eq!(kept(min, max, &[other, condition("n", "number", op, "7")]), Ok(0));
    }
    assert_eq!(kept(OUT[0], OUT[2], &[condition("n", "text", "eq", "7")]), Ok(0));
}
