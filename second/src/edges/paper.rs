//! P1 to P12, the program's example and the edges listed beside them.

use super::*;
use crate::listing;
use crate::manifests;
use crate::names::{self, Name};
use crate::query::{read_number, Number};

#[test]
fn p1_leading_zeros_are_decimal() {
    assert_eq!(names::read(b"00000000000000000010.json"), Name::Version(10));
}

#[test]
fn p2_p3_the_largest_version() {
    let with = |name: &str| {
        let mut files = log_of(&[]);
        files.push((name.to_string(), String::new()));
        number(read(Ask::Latest, "[]", &bundle_of(&files)))
    };
    assert_eq!(names::read(b"09223372036854775807.json"), Name::Version(i64::MAX as u64));
    assert_eq!(with("09223372036854775807.json"), 0);
    assert_eq!(with("09223372036854775808.json"), 3);
    assert_eq!(with("09223372036854775808.checkpoint.json"), 3);
    assert_eq!(with("99999999999999999999.json"), 3);
    assert_eq!(with("99999999999999999999.txt"), 0);
}

#[test]
fn p4_p5_p6_numbers() {
    assert_eq!(read_number(b"09"), Number::InRange(9));
    assert_eq!(read_number(b"-0"), Number::InRange(0));
    assert_eq!(read_number(b"9223372036854775808"), Number::OutOfRange);
    assert_eq!(read_number(b"-9223372036854775808"), Number::InRange(i64::MIN));
    assert_eq!(read_number(b"00000000000000000010"), Number::InRange(10));
    assert_eq!(read_number(b"000000000000000000010"), Number::None);
    for no_number in ["", "-", "+1", "1.0", " 1", "1 ", "--1"] {
        assert_eq!(read_number(no_number.as_bytes()), Number::None);
    }
}

#[test]
fn p7_escapes_are_one_path() {
    let log = log_of(&[add("a\\u002fb", 1), add("a/b", 2)]);
    let reading = read(Ask::Version(2), "[]", &bundle_of(&log)).unwrap();
    assert_eq!(reading.rows, 1);
}

#[test]
fn p8_p9_order_of_add_and_remove() {
    let rows = |bodies: &[String]| read(Ask::Latest, "[]", &bundle_of(&log_of(bodies))).unwrap().rows;
    assert_eq!(rows(&[remove("a") + &add("a", 1)]), 1);
    assert_eq!(rows(&[add("a", 1) + &remove("a")]), 0);
    assert_eq!(rows(&[remove("a"), add("a", 1)]), 1);
    assert_eq!(rows(&[add("a", 1), remove("a")]), 0);
}

#[test]
fn p10_p11_gaps_and_checkpoints() {
    let mut files = log_of(&[add("a", 1), String::new(), add("c", 1)]);
    files.remove(2);
    let gap = bundle_of(&files);
    assert_eq!(read(Ask::Latest, "[]", &gap).unwrap().version, 1);
    assert_eq!(number(read(Ask::Version(3), "[]", &gap)), 5);
    assert_eq!(number(read(Ask::Version(2), "[]", &gap)), 5);

    files.push((checkpoint(2), META.to_string() + &add("b", 1)));
    let with_checkpoint = bundle_of(&files);
    assert_eq!(read(Ask::Version(3), "[]", &with_checkpoint).unwrap().rows, 2);
    assert_eq!(read(Ask::Latest, "[]", &with_checkpoint).unwrap().version, 1);

    files.push(marker(2));
    assert_eq!(read(Ask::Latest, "[]", &bundle_of(&files)).unwrap().version, 3);

    files[3].1 = add("b", 1);
    let without_meta_data = bundle_of(&files);
    assert_eq!(number(read(Ask::Version(3), "[]", &without_meta_data)), 5);
    assert_eq!(number(read(Ask::Version(2), "[]", &without_meta_data)), 5);
    assert_eq!(read(Ask::Latest, "[]", &without_meta_data).unwrap().version, 1);
}

#[test]
fn p12_bounds() {
    let bounds = "{\"date\":{\"min\":\"2024-01-01\",\"max\":\"2024-01-31\"}}";
    let state = format!("{{\"manifests\":[{{\"path\":\"p\",\"partitionBounds\":{bounds}}}]}}");
    let kept = |op: &str| {
        let query = format!("[{{\"column\":\"date\",\"as\":\"text\",\"op\":\"{op}\",\"value\":\"2024-01-31\"}}]");
        manifests::keep(query.as_bytes(), state.as_bytes(), &mut [7; 256])
    };
    assert_eq!(kept("gt"), Ok(0));
    assert_eq!(kept("ge"), Ok(1));
}

#[test]
fn the_program_lists_to_the_byte() {
    let last = "{\"remove\":{\"path\":\"a.split\"}}\n".to_string() + &add("b.split", 60);
    let mut files = log_of(&[add("a.split", 100), add("b.split", 50), last]);
    files[0].1 = protocol(1, 2) + META;
    let expected = "version 3 files 1 reader 1 writer 2 writable yes\n\"b.split\" 60 7 -\n";
    assert_eq!(listing::list(&bundle_of(&files)), expected.as_bytes());
    assert_eq!(listing::list(&vec![0; 65_537]), b"refused 2 entry 0 line 0\n");
    files[2].1 = format!("\n{}x\n", add("b.split", 50));
    assert_eq!(listing::list(&bundle_of(&files)), b"refused 6 entry 2 line 3\n");
}

#[test]
fn the_program_prints_raw_paths_and_records() {
    let line = add("\\u0061\\/b", 1).replace("\"path\"", "\"numRecords\":12,\"path\"");
    let listed = listing::list(&bundle_of(&log_of(&[line.to_string()])));
    let expected = "version 1 files 1 reader 1 writer 1 writable yes\n\"\\u0061\\/b\" 1 7 12\n";
    assert_eq!(listed, expected.as_bytes());
}

#[test]
fn reader_3_accepted_4_refused() {
    for (reader, writer, refusal) in [(3, 3, 0), (4, 1, 8), (3, 4, 0), (4, 4, 8)] {
        let bundle = bundle_of(&[(version(0), protocol(reader, writer) + META)]);
        assert_eq!(number(read(Ask::Latest, "[]", &bundle)), refusal);
    }
}

#[test]
fn the_gate_judges_the_protocol_in_force() {
    let bundle = bundle_of(&log_of(&[protocol(4, 4), protocol(1, 4)]));
    assert_eq!(number(read(Ask::Version(1), "[]", &bundle)), 8);
    let reading = read(Ask::Version(2), "[]", &bundle).unwrap();
    assert!(!reading.writable);
}

#[test]
fn live_files_1024_accepted_1025_refused() {
    let adds: String = (0..1_024).map(|number| add(&number.to_string(), 1)).collect();
    let full = bundle_of(&log_of(&[adds.clone(), add("5", 2)]));
    assert_eq!(read(Ask::Latest, "[]", &full).unwrap().rows, 1_024);
    let beyond = bundle_of(&log_of(&[adds, add("5", 2) + &add("more", 1) + "x"]));
    assert_eq!(place(read(Ask::Latest, "[]", &beyond)), (7, 2, 2));
}

#[test]
fn ten_comes_after_nine_as_a_number() {
    let years = add_with_year("a", "\"10\"") + &add_with_year("b", "\"9\"") + &add_with_year("c", "null");
    let bundle = bundle_of(&log_of(&[YEAR.to_string() + &years]));
    let rows = |kind: &str| {
        let query = format!("[{{\"column\":\"year\",\"as\":\"{kind}\",\"op\":\"ge\",\"value\":\"10\"}}]");
        read(Ask::Latest, &query, &bundle).unwrap().rows
    };
    assert_eq!(rows("number"), 1);
    assert_eq!(rows("text"), 2);
}

#[test]
fn a_bad_checkpoint_is_passed_over() {
    let mut files = log_of(&[add("a", 1)]);
    files.push((checkpoint(1), META.to_string() + &add("b", 1) + "{}"));
    assert_eq!(read(Ask::Version(1), "[]", &bundle_of(&files)).unwrap().rows, 1);
    files.retain(|(name, _)| *name != version(1));
    assert_eq!(number(read(Ask::Version(1), "[]", &bundle_of(&files))), 5);
}
