//! Well-formed lines of every action, and the facts they carry.

use super::dice::Dice;
use super::writing::{any_value, member, object, quoted, shuffled_object, strings, Members};

/// The facts of a file: those of its add, and what a mergeskip line said of it since.
#[derive(Clone, Debug)]
pub struct FileFacts {
    pub path: String,
    pub size: u64,
    pub time: u64,
    pub records: Option<u64>,
    pub values: Vec<(String, Option<String>)>,
    pub skips: u64,
    pub retry: u64,
}

#[derive(Clone, Debug)]
pub struct ProtocolFacts {
    pub reader: u64,
    pub writer: u64,
    pub reader_features: Vec<String>,
    pub writer_features: Vec<String>,
}

pub const PATHS: [&str; 12] =
    ["a", "b", "c", "a/b", "a.split", "b.split", "\u{E9}", "\u{1F600}x", "a\"b", "a\\b", "\n", "\u{0}"];

const VALUES: [&str; 28] = [
    "",
    "a",
    "ab",
    "b",
    "\u{E9}",
    "\u{1F600}",
    "\u{FFFF}",
    "2024-01-01",
    "2024-01-31",
    "2024-01-311",
    "0",
    "-0",
    "9",
    "09",
    "10",
    "-1",
    "9223372036854775807",
    "9223372036854775808",
    "-9223372036854775808",
    "-9223372036854775809",
    "00000000000000000010",
    "000000000000000000010",
    "-00000000000000000001",
    "+1",
    "1.0",
    " 1",
    "-",
    "0x10",
];

/// Numbers around the ends of the range, on either side of them, and around 20 digits.
const EDGES: [&str; 20] = [
    "9223372036854775806",
    "9223372036854775807",
    "09223372036854775807",
    "-9223372036854775808",
    "-09223372036854775808",
    "-9223372036854775807",
    "9223372036854775808",
    "09223372036854775808",
    "-9223372036854775809",
    "-09223372036854775809",
    "18446744073709551615",
    "18446744073709551616",
    "18446744073709551617",
    "-18446744073709551616",
    "99999999999999999999",
    "-99999999999999999999",
    "100000000000000000000",
    "009223372036854775807",
    "009223372036854775808",
    "-009223372036854775809",
];

pub const COLUMNS: [&str; 7] = ["year", "class", "n\u{E4}me", "", "a\"b", "month", "\u{1F600}"];

pub const KNOWN_FEATURES: [&str; 6] =
    ["skippedFiles", "extendedMetadata", "footerOffsets", "schemaDeduplication", "checkpoint", "optimizeWrite"];

pub const UNKNOWN_FEATURES: [&str; 5] = ["avroState", "multiPartCheckpoint", "", "skippedfiles", "checkpoint "];

const NUMBERS: [u64; 8] = [0, 1, 7, 50, 60, 100, 1_696_000_000_000, i64::MAX as u64];

/// Retry times: few, so that times asked for meet them.
const RETRIES: [u64; 6] = [0, 0, 100, 101, 1_000, i64::MAX as u64];

/// A partition value; half of them of a few only, so that values and bounds meet.
pub fn value(dice: &mut Dice) -> String {
    if dice.one_in(2) {
        dice.pick(&["9", "10", "2024-01-01", "2024-01-31"]).to_string()
    } else {
        dice.pick(&VALUES).to_string()
    }
}

/// A value around the ends of the range of numbers, or any.
pub fn edge_value(dice: &mut Dice) -> String {
    match dice.below(4) {
        0 | 1 => dice.pick(&EDGES).to_string(),
        2 => dice.pick(&EDGES[..6]).to_string(),
        _ => value(dice),
    }
}

/// Up to three distinct column names, seldom as many as there may be.
pub fn columns(dice: &mut Dice) -> Vec<String> {
    let mut names = COLUMNS.map(str::to_string).to_vec();
    if dice.one_in(30) {
        names.extend((names.len()..16).map(|number| format!("c{number}")));
        dice.shuffle(&mut names);
        names.truncate(15 + dice.below(2));
    } else {
        dice.shuffle(&mut names);
        names.truncate(dice.below(4));
    }
    names
}

/// Facts of a file at this path: a value or null for each column, and no other key.
pub fn facts(dice: &mut Dice, path: &str, columns: &[String]) -> FileFacts {
    let mut values = Vec::new();
    for column in columns {
        let value = if dice.one_in(7) { None } else { Some(value(dice)) };
        values.push((column.clone(), value));
    }
    FileFacts {
        path: path.to_string(),
        size: dice.pick_number(&NUMBERS),
        time: dice.pick_number(&NUMBERS),
        records: if dice.one_in(2) { Some(dice.pick_number(&NUMBERS)) } else { None },
        values,
        skips: 0,
        retry: 0,
    }
}

pub fn partition_values(dice: &mut Dice, values: &[(String, Option<String>)]) -> String {
    let mut members = Members::new();
    for (column, value) in values {
        let written = match value {
            Some(text) => quoted(dice, text),
            None => "null".to_string(),
        };
        members.push((column.clone(), written));
    }
    shuffled_object(dice, members)
}

/// The fields of an add, in the order in which 01 lists them.
pub fn add_fields(dice: &mut Dice, facts: &FileFacts) -> Members {
    let mut fields = vec![
        ("path".to_string(), quoted(dice, &facts.path)),
        member("size", facts.size),
        member("modificationTime", facts.time),
        member("dataChange", dice.one_in(2)),
        ("partitionValues".to_string(), partition_values(dice, &facts.values)),
    ];
    match facts.records {
        Some(records) => fields.push(member("numRecords", records)),
        None if dice.one_in(4) => fields.push(member("numRecords", "null")),
        None => (),
    }
    fields
}

/// A line with this action; now and then with unknown fields, some of them twice.
pub fn action(dice: &mut Dice, key: &str, mut fields: Members) -> String {
    if dice.one_in(6) {
        let unknown = dice.pick(&["stats", "tags", "", "Path", "sizes", "deletionTimestamp"]);
        for _ in 0..1 + dice.below(2) {
            let value = any_value(dice);
            fields.push(member(unknown, value));
        }
    }
    if dice.one_in(3) {
        dice.shuffle(&mut fields);
    }
    let fields = object(dice, &fields);
    object(dice, &[member(key, fields)])
}

pub fn add(dice: &mut Dice, facts: &FileFacts) -> String {
    let fields = add_fields(dice, facts);
    action(dice, "add", fields)
}

pub fn remove(dice: &mut Dice, path: &str) -> String {
    let mut fields = vec![("path".to_string(), quoted(dice, path))];
    if dice.one_in(8) {
        fields.extend([member("size", "null"), member("size", "\"twice\"")]);
    }
    action(dice, "remove", fields)
}

/// A skip count and a retry time.
pub fn skip_numbers(dice: &mut Dice) -> (u64, u64) {
    (dice.pick_number(&[0, 1, 1, 2, 7, 2_147_483_647]), dice.pick_number(&RETRIES))
}

/// The fields of a mergeskip; what need not be written is written now and then.
pub fn merge_skip_fields(dice: &mut Dice, path: &str, skips: u64, retry: u64) -> Members {
    let mut fields = vec![("path".to_string(), quoted(dice, path))];
    if skips != 1 || dice.one_in(2) {
        fields.push(member("skipCount", skips));
    }
    match (retry, dice.below(3)) {
        (0, 0) => (),
        (0, 1) => fields.push(member("retryAfter", "null")),
        _ => fields.push(member("retryAfter", retry)),
    }
    if dice.one_in(6) {
        let unknown = dice.pick(&["reason", "skipTimestamp", "operation", "size", "partitionValues", "skipcount"]);
        for _ in 0..1 + dice.below(2) {
            let value = any_value(dice);
            fields.push(member(unknown, value));
        }
    }
    fields
}

pub fn merge_skip(dice: &mut Dice, path: &str, skips: u64, retry: u64) -> String {
    let fields = merge_skip_fields(dice, path, skips, retry);
    action(dice, "mergeskip", fields)
}

pub fn protocol_fields(dice: &mut Dice, facts: &ProtocolFacts) -> Members {
    let mut fields = vec![member("minReaderVersion", facts.reader), member("minWriterVersion", facts.writer)];
    for (name, features) in [("readerFeatures", &facts.reader_features), ("writerFeatures", &facts.writer_features)] {
        let mut features = features.clone();
        dice.shuffle(&mut features);
        if let (Some(first), true) = (features.first().cloned(), dice.one_in(6)) {
            features.push(first);
        }
        match (features.is_empty(), dice.below(3)) {
            (true, 0) => (),
            (true, 1) => fields.push(member(name, "null")),
            _ => fields.push((name.to_string(), strings(dice, &features))),
        }
    }
    fields
}

pub fn protocol(dice: &mut Dice, facts: &ProtocolFacts) -> String {
    let fields = protocol_fields(dice, facts);
    action(dice, "protocol", fields)
}

/// A protocol that the gate lets pass, or with `edges` one near or beyond its limits.
pub fn protocol_facts(dice: &mut Dice, edges: bool) -> ProtocolFacts {
    let mut known = KNOWN_FEATURES.map(str::to_string).to_vec();
    dice.shuffle(&mut known);
    known.truncate(dice.below(3));
    let mut facts = ProtocolFacts {
        reader: 1 + dice.below(3) as u64,
        writer: 1 + dice.below(3) as u64,
        reader_features: known.iter().filter(|name| !KNOWN_FEATURES[4..].contains(&&name[..])).cloned().collect(),
        writer_features: known,
    };
    if edges {
        match dice.below(5) {
            0 => facts.reader = dice.pick_number(&[3, 4, 2_147_483_647]),
            1 => facts.writer = dice.pick_number(&[3, 4, 2_147_483_647]),
            2 => facts.reader_features.push(dice.pick(&UNKNOWN_FEATURES).to_string()),
            3 => facts.reader_features.push(dice.pick(&KNOWN_FEATURES).to_string()),
            _ => facts.writer_features.push(dice.pick(&UNKNOWN_FEATURES).to_string()),
        }
    }
    facts
}

/// A line without effect.
pub fn other(dice: &mut Dice) -> String {
    let key = dice.pick(&["mergeSkip", "skip", "txn", "", "Add", "commitInfo"]);
    let value = any_value(dice);
    object(dice, &[member(key, value)])
}
