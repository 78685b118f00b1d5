//! C-22: the partition keys of an add in a version file are exactly the columns in force at its line.

use super::*;

/// What asking for a version gives: number, entry and line.
fn asked(version: u64, files: &[(String, String)]) -> (u64, u64, u64) {
    place(read(Ask::Version(version), "[]", &bundle_of(files)))
}

/// A log whose version 0 has these columns, and these further version files from 1 on.
fn table(columns: &[&str], bodies: &[String]) -> Vec<(String, String)> {
    let mut files = log_of(bodies);
    files[0].1 = meta_data("t", columns);
    files
}

fn keyed(path: &str, values: &str) -> String {
    add_with_values(path, 1, values)
}

const ACCEPTED: (u64, u64, u64) = (0, 0, 0);
const GOOD: &str = "{\"n\":\"1\",\"m\":\"2\"}";
const FOREIGN: &str = "{\"x\":\"1\"}";

#[test]
fn keys_are_the_columns_as_sets_of_decoded_names() {
    let with = |columns: &[&str], values: &str| asked(1, &table(columns, &[format!("\n\n{}", keyed("a", values))]));
    for values in [GOOD, "{\"m\":null,\"n\":null}", "{\"\\u006e\":\"\",\"m\":\"\"}"] {
        assert_eq!(with(&["n", "m"], values), ACCEPTED);
        assert_eq!(with(&["m", "\\u006E"], values), ACCEPTED);
    }
    let foreign = ["{}", "{\"n\":\"1\"}", "{\"n\":\"1\",\"m\":\"2\",\"x\":null}", "{\"n\":\"1\",\"M\":\"2\"}", FOREIGN];
    for values in foreign {
        assert_eq!(with(&["n", "m"], values), (21, 1, 3));
    }
    for values in ["{\"n\":\"1\",\"n\":\"1\"}", "{\"n\":\"1\",\"m\":1}", "{\"x\":1}", "null"] {
        assert_eq!(with(&["n", "m"], values), (6, 1, 3));
    }
    assert_eq!(with(&[], "{}"), ACCEPTED);
    assert_eq!(with(&[], FOREIGN), (21, 1, 3));
    assert_eq!(with(&[""], "{\"\":null}"), ACCEPTED);
    assert_eq!(with(&[""], "{}"), (21, 1, 3));
}

#[test]
fn the_metadata_above_the_line_is_in_force() {
    let (a, b) = ("{\"a\":\"1\"}", "{\"b\":\"1\"}");
    let to_b = meta_data("t", &["b"]);
    let with = |bodies: &[String]| asked(bodies.len() as u64, &table(&["a"], bodies));
    assert_eq!(with(&[to_b.clone() + &keyed("f", b)]), ACCEPTED);
    assert_eq!(with(&[keyed("f", b) + &to_b]), (21, 1, 1));
    assert_eq!(with(&[keyed("f", a) + &to_b + &keyed("g", a)]), (21, 1, 3));
    assert_eq!(with(&[keyed("f", a) + &to_b + &keyed("g", b)]), ACCEPTED);
    assert_eq!(with(&[keyed("f", a), to_b.clone(), keyed("f", b)]), ACCEPTED);
    assert_eq!(with(&[keyed("f", a), to_b, keyed("f", a)]), (21, 3, 1));
}

#[test]
fn only_adds_are_held_and_each_of_them() {
    let with = |body: String| asked(1, &table(&["n", "m"], &[body]));
    let others =
        ["remove", "mergeskip", "skip"].map(|key| keyed("a", FOREIGN).replace("\"add\"", &format!("\"{key}\"")));
    assert_eq!(with(others.concat()), ACCEPTED);
    assert_eq!(with(keyed("a", GOOD) + &keyed("a", FOREIGN)), (21, 1, 2));
    assert_eq!(with(keyed("a", FOREIGN) + &remove("a")), (21, 1, 1));
}

#[test]
fn checkpoints_are_not_held_but_bring_their_columns() {
    let mut files = table(&["n"], &[]);
    let lines = keyed("a", FOREIGN) + &keyed("b", "{}") + &meta_data("t", &["n", "m"]);
    files.push((checkpoint(2), lines));
    files.push((version(3), keyed("c", GOOD)));
    assert_eq!(asked(2, &files), ACCEPTED);
    assert_eq!(asked(3, &files), ACCEPTED);
    files[2].1 = keyed("c", "{\"n\":\"1\"}");
    assert_eq!(asked(2, &files), ACCEPTED);
    assert_eq!(asked(3, &files), (21, 2, 1));
}

#[test]
fn a_foreign_add_is_met_only_where_it_is_read() {
    let mut files = table(&["n", "m"], &[keyed("a", FOREIGN), remove("a"), keyed("c", GOOD)]);
    assert_eq!(asked(0, &files), ACCEPTED);
    assert_eq!(asked(3, &files), (21, 1, 1));
    assert_eq!(asked(4, &files), (5, 0, 0));
    files.push((checkpoint(2), meta_data("t", &["n", "m"])));
    assert_eq!(asked(1, &files), (21, 1, 1));
    assert_eq!(asked(3, &files), ACCEPTED);
}

#[test]
fn on_one_line_6_then_21_then_7() {
    let all: String = (0..1_024).map(|number| add(&number.to_string(), 1)).collect();
    let with = |lines: String| asked(1, &log_of(&[all.clone() + &lines]));
    assert_eq!(with(keyed("more", FOREIGN)), (21, 1, 1_025));
    assert_eq!(with(keyed("5", FOREIGN)), (21, 1, 1_025));
    assert_eq!(with(add("more", 1)), (7, 1, 1_025));
    assert_eq!(with(keyed("", FOREIGN)), (6, 1, 1_025));
    assert_eq!(with(add("more", 1) + &keyed("x", FOREIGN)), (7, 1, 1_025));
    assert_eq!(with(keyed("x", FOREIGN) + &add("more", 1)), (21, 1, 1_025));
}

#[test]
fn by_the_first_line_met_and_before_8_9_and_11() {
    let with = |body: String| place(read(Ask::Latest, &on("x"), &bundle_of(&log_of(&[body]))));
    assert_eq!(with(keyed("a", FOREIGN) + "malformed"), (21, 1, 1));
    assert_eq!(with("malformed\n".to_string() + &keyed("a", FOREIGN)), (6, 1, 1));
    assert_eq!(with(protocol(9, 9) + &keyed("a", FOREIGN)), (21, 1, 2));
    assert_eq!(with(keyed("a", FOREIGN)), (21, 1, 1));
}
