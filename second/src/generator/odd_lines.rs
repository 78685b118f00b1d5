//! Lines at the edge of a clause, on either side of it.

use super::dice::Dice;
use super::foreign;
use super::lines::{self, FileFacts};
use super::odd_texts::{odd_string_bytes, NUMBERS};
use super::writing::{any_value, member, nested, object, quoted, Members};

/// Replaces the mark `@@` in a line by these bytes.
fn fill(line: &str, bytes: &[u8]) -> Vec<u8> {
    match line.split_once("@@") {
        Some((before, after)) => [before.as_bytes(), bytes, after.as_bytes()].concat(),
        None => line.as_bytes().to_vec(),
    }
}

/// A string in quotes that decodes to exactly `length` bytes.
fn string_of(dice: &mut Dice, length: usize) -> String {
    let (unit, written) =
        [("z", "z"), ("z", "\\u007a"), ("\u{E9}", "\\u00e9"), ("\u{1F600}", "\\uD83D\\uDE00")][dice.below(4)];
    let units = length / unit.len();
    format!("\"{}{}\"", written.repeat(units), "y".repeat(length - units * unit.len()))
}

/// Any line: an action with one odd thing about it, or an odd form of the line itself. Adds have
/// these columns, most of them.
pub fn odd_line(dice: &mut Dice, columns: &[String]) -> Vec<u8> {
    match dice.below(13) {
        0..=3 => odd_add(dice, columns),
        4 | 5 => odd_protocol(dice),
        6 | 7 => odd_meta_data(dice),
        8 => odd_remove(dice),
        9 | 10 => odd_merge_skip(dice),
        _ => odd_form(dice, columns),
    }
}

fn some_facts(dice: &mut Dice, columns: &[String]) -> FileFacts {
    let path = dice.pick(&lines::PATHS);
    if dice.one_in(12) {
        let keys = foreign::keys(dice, columns, &[]);
        return lines::facts(dice, path, &keys);
    }
    lines::facts(dice, path, columns)
}

pub fn odd_add(dice: &mut Dice, columns: &[String]) -> Vec<u8> {
    let facts = some_facts(dice, columns);
    let mut fields = lines::add_fields(dice, &facts);
    match dice.below(8) {
        0 => {
            let length = [0, 1, 511, 512, 513][dice.below(5)];
            fields[0].1 = string_of(dice, length);
        }
        1 => {
            let number = dice.pick(&NUMBERS).to_string();
            match dice.below(3) {
                0 => fields[1].1 = number,
                1 => fields[2].1 = number,
                _ => {
                    fields.truncate(5);
                    fields.push(member("numRecords", number));
                }
            }
        }
        2 => fields[4].1 = odd_partition_values(dice, &facts),
        3 => fields[0].1 = "\"@@\"".to_string(),
        4 => {
            let mut values = facts.values.clone();
            match values.first_mut() {
                Some((_, value)) => *value = Some("@@".to_string()),
                None => values.push(("y".to_string(), Some("@@".to_string()))),
            }
            fields[4].1 = lines::partition_values(dice, &values);
        }
        5 => {
            let depth = [28, 29, 30, 31][dice.below(4)];
            let value = nested(dice, depth);
            fields.push(member("tags", value));
        }
        _ => odd_field(dice, &mut fields),
    }
    finish(dice, "add", fields)
}

/// Partition values that are none, or those of a file with one key or value odd.
fn odd_partition_values(dice: &mut Dice, facts: &FileFacts) -> String {
    let mut members: Members = facts.values.iter().map(|(column, _)| member(column, "\"1\"")).collect();
    if !members.is_empty() && !dice.one_in(4) {
        let some = dice.below(members.len());
        let value = dice.pick(&["null", "\"\"", "1", "true", "{}", "[]", "[null]", "\"\\u0000\""]);
        match dice.below(4) {
            0 => members.push(member(&facts.values[some].0, value)),
            1 => members.push(member("beside", value)),
            _ => members[some].1 = value.to_string(),
        }
        return object(dice, &members);
    }
    dice.pick(&[
        "{}",
        "null",
        "[]",
        "\"\"",
        "{\"a\":null}",
        "{\"a\":1}",
        "{\"a\":true}",
        "{\"a\":{}}",
        "{\"a\":[]}",
        "{\"a\":\"1\",\"a\":\"1\"}",
        "{\"a\":\"1\",\"\\u0061\":null}",
        "{\"a\":\"1\",\"A\":\"1\"}",
        "{\"\":\"\"}",
    ])
    .to_string()
}

/// One field missing, null, twice or of another kind.
fn odd_field(dice: &mut Dice, fields: &mut Members) {
    let index = dice.below(fields.len());
    match dice.below(5) {
        0 => {
            fields.remove(index);
        }
        1 => fields[index].1 = "null".to_string(),
        2 => {
            let again = fields[index].clone();
            fields.push(again);
        }
        3 => {
            let again = (fields[index].0.clone(), "null".to_string());
            fields.insert(dice.below(fields.len() + 1), again);
        }
        _ => fields[index].1 = any_value(dice),
    }
}

fn odd_protocol(dice: &mut Dice) -> Vec<u8> {
    let facts = lines::protocol_facts(dice, true);
    let mut fields = lines::protocol_fields(dice, &facts);
    match dice.below(5) {
        0 => fields[dice.below(2)].1 = dice.pick(&NUMBERS).to_string(),
        1 => fields[dice.below(2)].1 = dice.pick(&["0", "1", "2147483647", "2147483648"]).to_string(),
        2 => {
            fields.truncate(2);
            let features = dice.pick(&[
                "[]",
                "null",
                "{}",
                "\"checkpoint\"",
                "[null]",
                "[1]",
                "[[\"checkpoint\"]]",
                "[\"checkpoint\"]",
                "[\"footerOffsets\",\"footer\\u004fffsets\"]",
                "[\"@@\"]",
            ]);
            fields.push(member(dice.pick(&["readerFeatures", "writerFeatures"]), features));
        }
        _ => odd_field(dice, &mut fields),
    }
    finish(dice, "protocol", fields)
}

pub fn odd_meta_data(dice: &mut Dice) -> Vec<u8> {
    let mut fields = vec![member("id", "\"t\""), member("partitionColumns", "[]")];
    match dice.below(5) {
        0 => fields[0].1 = dice.pick(&["\"\"", "\"x\"", "\"\\u0000\"", "1", "null", "\"@@\""]).to_string(),
        1 => {
            let columns: Vec<String> =
                (0..[15, 16, 17][dice.below(3)]).map(|number| format!("\"c{number}\"")).collect();
            fields[1].1 = format!("[{}]", columns.join(","));
        }
        2 => {
            fields[1].1 = dice
                .pick(&[
                    "[\"a\",\"a\"]",
                    "[\"a\",\"\\u0061\"]",
                    "[\"a\",\"A\"]",
                    "[\"\"]",
                    "[null]",
                    "[1]",
                    "null",
                    "{}",
                    "\"a\"",
                    "[\"@@\"]",
                ])
                .to_string()
        }
        _ => odd_field(dice, &mut fields),
    }
    finish(dice, "metaData", fields)
}

fn odd_remove(dice: &mut Dice) -> Vec<u8> {
    let length = [0, 1, 512, 513][dice.below(4)];
    let mut fields = vec![("path".to_string(), string_of(dice, length))];
    if dice.one_in(2) {
        fields[0].1 = quoted(dice, "a");
        odd_field(dice, &mut fields);
    }
    finish(dice, "remove", fields)
}

/// A mergeskip at the edge of a clause, for a path that may be live.
pub fn odd_merge_skip(dice: &mut Dice) -> Vec<u8> {
    let path = dice.pick(&lines::PATHS);
    let (skips, retry) = lines::skip_numbers(dice);
    let mut fields = lines::merge_skip_fields(dice, path, skips, retry);
    match dice.below(8) {
        0 => {
            let length = [0, 1, 512, 513][dice.below(4)];
            fields[0].1 = string_of(dice, length);
        }
        1 => fields[0].1 = "\"@@\"".to_string(),
        2 | 3 => {
            fields.retain(|(name, _)| name != "skipCount");
            fields.push(member("skipCount", dice.pick(&NUMBERS)));
        }
        4 => {
            fields.retain(|(name, _)| name != "retryAfter");
            fields.push(member("retryAfter", dice.pick(&NUMBERS)));
        }
        5 => {
            let name = dice.pick(&["skipCount", "retryAfter", "reason"]);
            let (one, two) = (dice.pick(&["1", "0", "null"]), dice.pick(&["1", "null"]));
            fields.retain(|(other, _)| other != name);
            fields.extend([member(name, one), member(name, two)]);
        }
        6 => {
            let value = any_value(dice);
            return object(dice, &[member("mergeskip", value)]).into_bytes();
        }
        _ => odd_field(dice, &mut fields),
    }
    finish(dice, "mergeskip", fields)
}

fn finish(dice: &mut Dice, key: &str, fields: Members) -> Vec<u8> {
    let line = lines::action(dice, key, fields);
    let bytes = odd_string_bytes(dice);
    fill(&line, &bytes)
}

/// Odd forms of a line, whatever its action.
fn odd_form(dice: &mut Dice, columns: &[String]) -> Vec<u8> {
    let facts = some_facts(dice, columns);
    let good = lines::add(dice, &facts);
    let line = match dice.below(12) {
        0 => dice
            .pick(&["{}", "[]", "null", "1", "\"add\"", " ", "\t", "\r", "{", "}", "{\"add\"}", "{\"add\":}"])
            .to_string(),
        1 => format!("{{\"txn\":{}}}", dice.pick(&NUMBERS)),
        2 => "{\"txn\":\"@@\"}".to_string(),
        3 => "{\"@@\":1}".to_string(),
        4 => {
            let depth = [30, 31, 32][dice.below(3)];
            let value = nested(dice, depth);
            object(dice, &[member("txn", value)])
        }
        5 => format!("{good}{}", dice.pick(&[" ", "\r", "\t", ",", "}", "{}", "x", "\u{0}", "\u{C}"])),
        6 => format!("{}{good}", dice.pick(&[" ", "\r", "\t", ",", "\u{FEFF}", "\u{B}", "\u{A0}"])),
        7 => {
            let fields = lines::add_fields(dice, &facts);
            let fields = object(dice, &fields);
            let form = dice.pick(&["{#,@}", "{@,#}", "{#,#}", "{#,}", "{,#}", "{#", "{#}}", "{#:1}"]);
            form.replace('#', &format!("\"add\":{fields}")).replace('@', "\"txn\":1")
        }
        8 => {
            let key = dice.pick(&["add", "remove", "protocol", "metaData", "mergeskip"]);
            let value = any_value(dice);
            object(dice, &[member(key, value)])
        }
        9 => good.replacen(':', dice.pick(&["=", "::", " ", ": "]), 1),
        10 => good.replace("true", dice.pick(&["True", "tru", "truee", "1", "false"])),
        _ => {
            let mut bytes = good.into_bytes();
            let keep = dice.below(bytes.len());
            if dice.one_in(2) {
                bytes.truncate(keep);
            } else {
                bytes[keep] ^= 1 << dice.below(8);
            }
            bytes.retain(|&byte| byte != b'\n');
            return bytes;
        }
    };
    let bytes = odd_string_bytes(dice);
    fill(&line, &bytes)
}
