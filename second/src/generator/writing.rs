//! Writing JSON by chance: the same value with other escapes, blanks and orders.

use super::dice::Dice;

/// Members of an object: keys as they decode, values already written.
pub type Members = Vec<(String, String)>;

pub fn member(key: &str, value: impl ToString) -> (String, String) {
    (key.to_string(), value.to_string())
}

/// A string in quotes; now and then characters are escaped that need not be.
pub fn quoted(dice: &mut Dice, text: &str) -> String {
    let escaping = dice.one_in(6);
    let mut written = String::from("\"");
    for character in text.chars() {
        let must = character < ' ' || character == '"' || character == '\\';
        if must || (escaping && dice.one_in(3)) {
            escape(dice, character, &mut written);
        } else {
            written.push(character);
        }
    }
    written.push('"');
    written
}

fn escape(dice: &mut Dice, character: char, written: &mut String) {
    let short = match character {
        '"' | '\\' | '/' => Some(character),
        '\u{8}' => Some('b'),
        '\u{C}' => Some('f'),
        '\n' => Some('n'),
        '\r' => Some('r'),
        '\t' => Some('t'),
        _ => None,
    };
    match short {
        Some(letter) if dice.one_in(2) => written.extend(['\\', letter]),
        _ => {
            for unit in character.encode_utf16(&mut [0; 2]) {
                *written += &if dice.one_in(2) { format!("\\u{unit:04x}") } else { format!("\\u{unit:04X}") };
            }
        }
    }
}

fn blanks(dice: &mut Dice, spaced: bool) -> &'static str {
    if spaced {
        dice.pick(&["", " ", "\t", "  ", "\r"])
    } else {
        ""
    }
}

/// An object of these members in this order, now and then with blanks in it.
pub fn object(dice: &mut Dice, members: &[(String, String)]) -> String {
    let spaced = dice.one_in(10);
    let mut written = String::from("{");
    for (number, (key, value)) in members.iter().enumerate() {
        if number > 0 {
            written.push(',');
        }
        written += blanks(dice, spaced);
        written += &quoted(dice, key);
        written += blanks(dice, spaced);
        written.push(':');
        written += blanks(dice, spaced);
        written += value;
        written += blanks(dice, spaced);
    }
    written.push('}');
    written
}

pub fn shuffled_object(dice: &mut Dice, mut members: Members) -> String {
    dice.shuffle(&mut members);
    object(dice, &members)
}

pub fn array(items: &[String]) -> String {
    format!("[{}]", items.join(","))
}

pub fn strings(dice: &mut Dice, texts: &[impl AsRef<str>]) -> String {
    let items: Vec<String> = texts.iter().map(|text| quoted(dice, text.as_ref())).collect();
    array(&items)
}

/// A value `depth` objects and arrays deep.
pub fn nested(dice: &mut Dice, depth: usize) -> String {
    let mut written = dice.pick(&["", "1", "null", "\"\""]).to_string();
    for level in 0..depth {
        let innermost_empty = level == 0 && written.is_empty();
        written = match (dice.one_in(2), innermost_empty) {
            (true, true) => "{}".to_string(),
            (true, false) => format!("{{\"k\":{written}}}"),
            (false, _) => format!("[{written}]"),
        };
    }
    if written.is_empty() {
        written.push('0');
    }
    written
}

/// Any small JSON value.
pub fn any_value(dice: &mut Dice) -> String {
    match dice.below(4) {
        0 => {
            let depth = dice.below(4);
            nested(dice, depth)
        }
        1 => quoted(dice, "t\u{E9}xt\u{1F600}\n\"/\\"),
        _ => dice
            .pick(&[
                "null",
                "true",
                "false",
                "0",
                "-0",
                "-1.5e+10",
                "1.0",
                "1e3",
                "12345678901234567890",
                "{}",
                "[]",
                "\"\"",
            ])
            .to_string(),
    }
}
