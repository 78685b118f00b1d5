//! Queries: well formed on given columns, and malformed in every clause.

use super::dice::Dice;
use super::lines;
use super::odd_texts::odd_string_bytes;
use super::writing::{array, member, object, quoted, shuffled_object, Members};

const NUMBERS: [&str; 12] = [
    "0",
    "-0",
    "9",
    "09",
    "10",
    "-1",
    "00000000000000000010",
    "-00000000000000000001",
    "9223372036854775807",
    "-9223372036854775808",
    "99",
    "2024",
];

const NO_NUMBERS: [&str; 12] = [
    "",
    "-",
    "--1",
    "+1",
    " 1",
    "1 ",
    "1.0",
    "9223372036854775808",
    "-9223372036854775809",
    "000000000000000000001",
    "abc",
    "99999999999999999999",
];

/// The members of a condition on this column, in an order that the rules allow.
fn condition(dice: &mut Dice, column: &str) -> Members {
    let number = dice.one_in(2);
    let value = match (number, dice.one_in(2)) {
        (false, _) => lines::value(dice),
        (true, false) => dice.pick(&["9", "10"]).to_string(),
        (true, true) => dice.pick(&NUMBERS).to_string(),
    };
    let kind = quoted(dice, if number { "number" } else { "text" });
    let op = dice.pick(&["eq", "lt", "le", "gt", "ge"]);
    let mut members = vec![
        ("column".to_string(), quoted(dice, column)),
        ("as".to_string(), kind),
        ("op".to_string(), quoted(dice, op)),
        ("value".to_string(), quoted(dice, &value)),
    ];
    dice.shuffle(&mut members);
    let place = |members: &Members, key: &str| members.iter().position(|(name, _)| name == key);
    let (kind, value) = (place(&members, "as"), place(&members, "value"));
    if let (Some(kind), Some(value)) = (kind, value) {
        if kind > value {
            members.swap(kind, value);
        }
    }
    members
}

/// A well-formed query with a condition on some of the columns.
pub fn on_columns(dice: &mut Dice, columns: &[String]) -> Vec<u8> {
    let mut columns = columns.to_vec();
    dice.shuffle(&mut columns);
    columns.truncate(dice.below(3));
    let mut conditions = Vec::new();
    for column in &columns {
        let members = condition(dice, column);
        conditions.push(object(dice, &members));
    }
    array(&conditions).into_bytes()
}

/// A well-formed query with a condition on one of the columns, on any if there are none.
pub fn on_one(dice: &mut Dice, columns: &[String]) -> Vec<u8> {
    let any = lines::COLUMNS.map(str::to_string);
    let columns = if columns.is_empty() { &any[..] } else { columns };
    let column = &columns[dice.below(columns.len())];
    let members = condition(dice, column);
    array(&[object(dice, &members)]).into_bytes()
}

/// A well-formed query of number conditions on some of the columns, and a text condition now and then; now
/// and then with a value out of range, or on another column.
pub fn on_numbers(dice: &mut Dice, columns: &[String]) -> Vec<u8> {
    let mut columns = columns.to_vec();
    dice.shuffle(&mut columns);
    columns.truncate(1 + dice.below(3));
    if dice.one_in(15) {
        columns.push("no column".to_string());
    }
    let mut conditions = Vec::new();
    for column in &columns {
        let text = dice.one_in(5);
        let value = match dice.below(30) {
            0 => lines::edge_value(dice),
            _ if text => lines::value(dice),
            _ => dice.pick(&NUMBERS).to_string(),
        };
        let members = [
            ("column".to_string(), quoted(dice, column)),
            member("as", if text { "\"text\"" } else { "\"number\"" }),
            member("op", dice.pick(&["\"eq\"", "\"lt\"", "\"le\"", "\"gt\"", "\"ge\"", "\"ge\""])),
            ("value".to_string(), quoted(dice, &value)),
        ];
        conditions.push(object(dice, &members));
    }
    array(&conditions).into_bytes()
}

/// Mostly well formed on these columns; now and then on another column, or malformed.
pub fn some(dice: &mut Dice, columns: &[String]) -> Vec<u8> {
    match dice.below(20) {
        0..=5 => b"[]".to_vec(),
        6 => on_columns(dice, &["no column".to_string(), "year".to_string()]),
        7 => odd(dice, columns),
        _ => on_columns(dice, columns),
    }
}

/// A query at the edge of a clause, on either side of it.
pub fn odd(dice: &mut Dice, columns: &[String]) -> Vec<u8> {
    match dice.below(8) {
        0 => at_length_edge(dice),
        1 => at_count_edge(dice),
        2 => odd_form(dice),
        3 => {
            let value = dice.pick(&[NUMBERS, NO_NUMBERS].concat()).to_string();
            let value = quoted(dice, &value);
            format!("[{{\"column\":\"year\",\"as\":\"number\",\"op\":\"ge\",\"value\":{value}}}]").into_bytes()
        }
        4 => {
            let bytes = odd_string_bytes(dice);
            let [before, after] = ["[{\"column\":\"year\",\"as\":\"text\",\"op\":\"lt\",\"value\":\"", "\"}]"];
            [before.as_bytes(), &bytes, after.as_bytes()].concat()
        }
        5 => {
            let mut query = on_columns(dice, columns);
            let at = dice.below(query.len());
            query[at] ^= 1 << dice.below(8);
            query
        }
        _ => odd_condition(dice, columns),
    }
}

/// 4,095 to 4,097 bytes, by blanks or by a long value.
fn at_length_edge(dice: &mut Dice) -> Vec<u8> {
    let length = 4_095 + dice.below(3);
    if dice.one_in(2) {
        return format!("{:<length$}", "[]").into_bytes();
    }
    let [before, after] = ["[{\"column\":\"year\",\"as\":\"text\",\"op\":\"lt\",\"value\":\"", "\"}]"];
    format!("{before}{}{after}", "v".repeat(length - before.len() - after.len())).into_bytes()
}

/// 7 to 9 conditions, on columns that differ or of which two do not.
fn at_count_edge(dice: &mut Dice) -> Vec<u8> {
    let count = 7 + dice.below(3);
    let mut conditions = Vec::new();
    for number in 0..count {
        let members = condition(dice, &format!("c{number}"));
        conditions.push(object(dice, &members));
    }
    if dice.one_in(3) {
        let members = condition(dice, "c1");
        conditions[0] = object(dice, &members);
    }
    array(&conditions).into_bytes()
}

fn odd_form(dice: &mut Dice) -> Vec<u8> {
    let good = "{\"column\":\"year\",\"as\":\"text\",\"op\":\"eq\",\"value\":\"a\"}";
    dice.pick(&[
        "",
        " ",
        "[",
        "]",
        "{}",
        "null",
        "[null]",
        "[{}]",
        "[[]]",
        "[1]",
        "[] []",
        "[],",
        "\n[\t]\r ",
        "[#,]",
        "[,#]",
        "[#",
        "#",
        "[#,#]",
        "[# #]",
        " [ # ] ",
        "{\"conditions\":[#]}",
        "\u{FEFF}[]",
        "[#]x",
        "[#,null]",
    ])
    .replace('#', good)
    .into_bytes()
}

/// One condition with one odd thing about it.
fn odd_condition(dice: &mut Dice, columns: &[String]) -> Vec<u8> {
    let column = columns.first().map_or("year", |column| column);
    let mut members = condition(dice, column);
    let index = dice.below(4);
    let written = match dice.below(7) {
        0 => {
            members.remove(index);
            object(dice, &members)
        }
        1 => {
            let again = members[index].clone();
            members.insert(dice.below(5), again);
            object(dice, &members)
        }
        2 => {
            let (key, value) = (dice.pick(&["more", "column", "as"]), dice.pick(&["\"\"", "null", "[]"]));
            members.insert(dice.below(5), member(key, value));
            object(dice, &members)
        }
        3 => {
            members[index].1 = dice.pick(&["null", "1", "true", "[]", "{}", "\"\""]).to_string();
            object(dice, &members)
        }
        4 => shuffled_object(dice, members),
        5 => {
            let odd =
                dice.pick(&["\"Eq\"", "\"ne\"", "\"Text\"", "\"num\"", "\"eq \"", "\"\\u0065q\"", "\"te\\u0078t\""]);
            members[index].1 = odd.to_string();
            object(dice, &members)
        }
        _ => {
            let second = condition(dice, column);
            return array(&[object(dice, &members), object(dice, &second)]).into_bytes();
        }
    };
    array(&[written]).into_bytes()
}
