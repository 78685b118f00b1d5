//! C-11: the last metaData line on the way is in force, and a checkpoint brings its own.

use super::*;

/// What asking for a version answers under a condition on each of these columns: the number of
/// rows, or the refusal number negated.
fn asked(version: u64, columns: &str, bundle: &[u8]) -> Vec<i64> {
    let answer = |column: &str| match read(Ask::Version(version), &on(column), bundle) {
        Ok(reading) => reading.rows as i64,
        Err(refusal) => -(refusal.number as i64),
    };
    columns.split(' ').map(answer).collect()
}

fn metas(columns: &[&str]) -> String {
    meta_data("t", columns)
}

/// An add under the columns a and b, which are in force for this line alone.
fn add_with_both(path: &str, columns: &[&str]) -> String {
    metas(&["a", "b"]) + &add_with_values(path, 1, BOTH) + &metas(columns)
}

const BOTH: &str = "{\"a\":\"1\",\"b\":\"2\"}";

#[test]
fn the_last_line_at_or_below_the_version() {
    let mut files = log_of(&[add_with_both("f", &["a"]), metas(&["b"]), remove("g"), metas(&["a"])]);
    files[0].1 = metas(&["a"]);
    let bundle = bundle_of(&files);
    assert_eq!(asked(0, "a b", &bundle), [0, -11]);
    assert_eq!(asked(1, "a b", &bundle), [1, -11]);
    assert_eq!(asked(2, "a b", &bundle), [-11, 1]);
    assert_eq!(asked(3, "a b", &bundle), [-11, 1]);
    assert_eq!(asked(4, "a b", &bundle), [1, -11]);
}

#[test]
fn the_last_line_of_a_file() {
    let bundle = bundle_of(&log_of(&[add_with_both("f", &["c", "b"])]));
    assert_eq!(asked(1, "b c a year", &bundle), [1, 0, -11, -11]);
}

#[test]
fn a_later_line_must_be_well_formed() {
    let bundle = bundle_of(&log_of(&[format!("\n{}", meta_data("", &[])) + META]));
    assert_eq!(place(read(Ask::Latest, "[]", &bundle)), (6, 1, 2));
    assert_eq!(place(read(Ask::Version(0), "[]", &bundle)), (0, 0, 0));
}

#[test]
fn version_zero_keeps_its_rules() {
    let mut files = log_of(&[metas(&["a"])]);
    files[0].1 = metas(&["a"]) + &metas(&["b"]);
    assert_eq!(place(read(Ask::Latest, "[]", &bundle_of(&files))), (6, 0, 2));
    files[0].1 = protocol(1, 1);
    assert_eq!(place(read(Ask::Latest, "[]", &bundle_of(&files))), (6, 0, 0));
    files.push((checkpoint(1), metas(&["a"])));
    assert_eq!(place(read(Ask::Latest, "[]", &bundle_of(&files))), (6, 0, 0));
}

#[test]
fn a_checkpoint_brings_its_own() {
    let mut files = log_of(&[]);
    files.push((checkpoint(2), metas(&["a"]) + &add_with_values("f", 1, BOTH) + &metas(&["c", "b"])));
    files.push((version(3), add_with_values("g", 1, "{\"b\":null,\"c\":null}")));
    files.push((version(4), metas(&["a"])));
    let bundle = bundle_of(&files);
    assert_eq!(asked(2, "c b a year", &bundle), [0, 1, -11, -11]);
    assert_eq!(asked(3, "c b a year", &bundle), [0, 1, -11, -11]);
    assert_eq!(asked(4, "c b a year", &bundle), [-11, -11, 1, -11]);
}

#[test]
fn a_checkpoint_without_one_is_passed_over() {
    let mut files = log_of(&[add("a", 1), add("b", 1), add("c", 1)]);
    files.push((checkpoint(2), protocol(3, 3) + &add("d", 1)));
    files.push(marker(2));
    let reading = read(Ask::Latest, "[]", &bundle_of(&files)).unwrap();
    assert_eq!((reading.version, reading.rows, reading.reader), (3, 3, 1));
    files[4].1 += META;
    let reading = read(Ask::Latest, "[]", &bundle_of(&files)).unwrap();
    assert_eq!((reading.version, reading.rows, reading.reader), (3, 2, 3));
    files[4].1 += &meta_data("", &[]);
    let reading = read(Ask::Latest, "[]", &bundle_of(&files)).unwrap();
    assert_eq!((reading.version, reading.rows, reading.reader), (3, 3, 1));
}

#[test]
fn a_checkpoint_at_0_too() {
    let mut files = log_of(&[]);
    files.push((checkpoint(0), add("a", 1)));
    assert_eq!(read(Ask::Version(0), "[]", &bundle_of(&files)).unwrap().rows, 0);
    files[1].1 += &metas(&["a"]);
    assert_eq!(read(Ask::Version(0), "[]", &bundle_of(&files)).unwrap().rows, 1);
    assert_eq!(asked(0, "a year", &bundle_of(&files)), [0, -11]);
}
