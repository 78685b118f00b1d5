//! Both sides of the clauses on lines, version 0, names, bundles and queries.

use super::*;
use crate::actions::{self, path_of, records_of, Records};
use crate::json;
use crate::manifests::{self, Directory};
use crate::query;
use crate::refusal;

fn is_add(fields: &str) -> bool {
    actions::read(format!("{{\"add\":{{{fields}}}}}").as_bytes()).is_some()
}

const REST: &str = "\"size\":1,\"modificationTime\":2,\"dataChange\":false,\"partitionValues\":{}";

#[test]
fn depth_32_is_the_deepest() {
    let nested = |depth: usize| format!("{{\"txn\":{}{}}}", "[".repeat(depth - 1), "]".repeat(depth - 1));
    assert!(actions::read(nested(32).as_bytes()).is_some());
    assert!(actions::read(nested(33).as_bytes()).is_none());
}

#[test]
fn path_lengths() {
    for (length, accepted) in [(0, false), (1, true), (512, true), (513, false)] {
        let path = "\\u0061".repeat(length);
        assert_eq!(is_add(&format!("\"path\":\"{path}\",{REST}")), accepted, "{length}");
    }
}

#[test]
fn fields_of_an_add() {
    let path = "\"path\":\"a\"";
    assert!(is_add(&format!("{path},{REST}")));
    assert!(is_add(&format!("{path},{REST},\"numRecords\":null,\"tags\":1,\"tags\":[]")));
    assert!(!is_add(&format!("{path},{REST},\"numRecords\":null,\"numRecords\":1")));
    assert!(!is_add(&format!("{path},{path},{REST}")));
    assert!(!is_add(&format!("{path},\"p\\u0061th\":\"a\",{REST}")));
    assert!(!is_add(REST));
    for size in ["-0", "1.0", "1e3", "9223372036854775808", "null", "\"1\""] {
        assert!(!is_add(&format!(
            "{path},\"size\":{size},\"modificationTime\":2,\"dataChange\":false,\"partitionValues\":{{}}"
        )));
    }
    assert!(!is_add("\"path\":\"a\",\"size\":1,\"modificationTime\":2,\"dataChange\":0,\"partitionValues\":{}"));
    for (values, accepted) in [("{\"a\":null}", true), ("{\"a\":1}", false), ("{\"a\":\"\",\"\\u0061\":\"\"}", false)] {
        let fields =
            format!("{path},\"size\":1,\"modificationTime\":2,\"dataChange\":true,\"partitionValues\":{values}");
        assert_eq!(is_add(&fields), accepted);
    }
}

#[test]
fn strings() {
    let accepted = ["\"\\uD83D\\uDE00\"", "\"\\u0000\"", "\"\u{7F}\"", "\"\\/\""];
    let refused = ["\"\\uD83D\"", "\"\\uDE00\"", "\"\\uD83D\\uD83D\"", "\"\\x\"", "\"\t\"", "\"", "\"\\u12G4\""];
    assert!(accepted.iter().all(|text| json::read(text.as_bytes()).is_some()));
    assert!(refused.iter().all(|text| json::read(text.as_bytes()).is_none()));
    assert!(json::read(b"\"\xED\xA0\x80\"").is_none());
    assert!(json::read(b"\"\xC0\xAF\"").is_none());
}

#[test]
fn numbers_and_blanks() {
    assert!(["0", "-0", "1.5e-3", " 1\r\n", "[1 , 2]"].iter().all(|text| json::read(text.as_bytes()).is_some()));
    assert!(["01", "+1", "1.", ".1", "1e", "-", "\u{FEFF}1", "\u{B}1"]
        .iter()
        .all(|text| json::read(text.as_bytes()).is_none()));
}

#[test]
fn version_zero() {
    let place_of = |body: String| place(read(Ask::Version(0), "[]", &bundle_of(&[(version(0), body)])));
    assert_eq!(place_of(String::new()), (6, 0, 0));
    assert_eq!(place_of("\n\n".to_string()), (6, 0, 0));
    assert_eq!(place_of(protocol(1, 1)), (6, 0, 0));
    assert_eq!(place_of(format!("\n{META}\n{META}")), (6, 0, 4));
    assert_eq!(place_of(protocol(1, 1) + META + &protocol(1, 1)), (6, 0, 3));
    assert_eq!(place_of(META.to_string() + &add("a", 1)), (6, 0, 2));
    assert_eq!(place_of(META.to_string() + &remove("a")), (6, 0, 2));
    assert_eq!(place_of(META.to_string() + "{\"mergeskip\":1}"), (6, 0, 2));
    assert_eq!(place_of(META.to_string() + "{\"skip\":1}"), (0, 0, 0));
    assert_eq!(place_of(META.to_string() + " "), (6, 0, 2));
    assert_eq!(place_of(META.replace('\n', "\r\n")), (0, 0, 0));
}

#[test]
fn refusals_come_in_order() {
    let bad_zero = bundle_of(&[(version(0), "x".to_string())]);
    assert_eq!(number(read(Ask::Version(1), "[]", &bad_zero)), 5);
    assert_eq!(number(read(Ask::Version(0), "[]", &bad_zero)), 6);
    assert_eq!(number(read(Ask::Version(0), "", b"")), 10);
    assert_eq!(number(read(Ask::Version(0), "[]", b"\0\0\0\0")), 4);
    assert_eq!(number(read(Ask::Version(0), "[]", b"\0\0\0\0\0")), 2);
    let unknown_column = "[{\"column\":\"x\",\"as\":\"text\",\"op\":\"eq\",\"value\":\"\"}]";
    let gated = bundle_of(&[(version(0), protocol(4, 1) + META)]);
    assert_eq!(number(read(Ask::Latest, unknown_column, &gated)), 8);
    assert_eq!(number(read(Ask::Latest, unknown_column, &bundle_of(&log_of(&[])))), 11);
    let mut short = vec![9; TABLE - 1];
    assert_eq!(reading::read(Ask::Latest, b"", b"", &mut short), Err(refusal::ROOM_TOO_SHORT));
    assert!(short.iter().all(|&number| number == 9));
}

#[test]
fn queries() {
    let condition = |fields: &str| query::read(format!("[{{{fields}}}]").as_bytes()).is_some();
    assert!(condition("\"op\":\"eq\",\"as\":\"text\",\"value\":\"\",\"column\":\"c\""));
    assert!(!condition("\"op\":\"eq\",\"value\":\"\",\"as\":\"text\",\"column\":\"c\""));
    assert!(!condition("\"op\":\"eq\",\"as\":\"number\",\"value\":\"\",\"column\":\"c\""));
    assert!(!condition("\"op\":\"eq\",\"as\":\"text\",\"value\":\"\",\"column\":\"c\",\"x\":\"\""));
    assert!(!condition("\"op\":\"eq\",\"as\":\"text\",\"value\":\"\""));
    assert!(query::read(format!("{:4096}", "[]").as_bytes()).is_some());
    assert!(query::read(format!("{:4097}", "[]").as_bytes()).is_none());
    let many = |count: usize| {
        let conditions: Vec<String> = (0..count)
            .map(|number| format!("{{\"column\":\"{number}\",\"as\":\"text\",\"op\":\"eq\",\"value\":\"\"}}"))
            .collect();
        query::read(format!("[{}]", conditions.join(",")).as_bytes()).is_some()
    };
    assert!(many(8) && !many(9));
}

#[test]
fn bundles() {
    let good = bundle_of(&log_of(&[add("a", 1)]));
    assert!(bundle::read(&good).is_some());
    for (at, byte) in [(4, 0x20), (4 + 95, b'z'), (4 + 96, 0), (4 + 100, 0), (116, b'0' - 1), (0, 1), (0, 3)] {
        let mut bad = good.clone();
        bad[at] = byte;
        assert!(bundle::read(&bad).is_none(), "{at}");
    }
    assert!(bundle::read(&good[..good.len() - 1]).is_none());
}

#[test]
fn directories() {
    let part_of_path = |path: &'static str| match manifests::directory(path.as_bytes(), b"lent/") {
        Directory::PartOfPath(part) => String::from_utf8_lossy(part).into_owned(),
        Directory::StateDirectory(name) => format!("as lent: {}", String::from_utf8_lossy(name)),
    };
    assert_eq!(part_of_path("manifests/a.avro"), "manifests");
    assert_eq!(part_of_path("manifests/a/b.avro"), "manifests/a");
    assert_eq!(part_of_path("state-v42/a.avro"), "state-v42");
    assert_eq!(part_of_path("state-v42"), "as lent: lent/");
    assert_eq!(part_of_path("a/b.avro"), "as lent: lent/");
    assert_eq!(part_of_path(""), "as lent: lent/");
}

#[test]
fn one_line_given() {
    let line = format!("{{\"add\":{{\"path\":\"\\u0061\",{REST},\"numRecords\":5}}}}");
    assert_eq!(path_of(line.as_bytes()), b"\\u0061");
    assert_eq!(records_of(line.as_bytes()), Records::Number(5));
    assert_eq!(records_of(line.replace('5', "null").as_bytes()), Records::Missing);
    assert_eq!(records_of(line.replace("add", "remove").as_bytes()), Records::None);
    assert_eq!(path_of(format!(" {line}\r").as_bytes()), b"\\u0061");
    assert_eq!(path_of(format!("{line}\n").as_bytes()), b"");
    assert_eq!(path_of(b"{\"remove\":{\"path\":\"a\"}}"), b"");
}
