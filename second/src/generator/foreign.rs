//! Foreign adds: partition keys other than the columns in force, where they are refused and where not.

use super::dice::Dice;
use super::lines::{self, COLUMNS};
use super::logs::{checkpoint_name, version_name, Log};
use super::twists::insert_line;

/// Keys that are not these columns: one less, more or other, none, or those of the whole log.
pub fn keys(dice: &mut Dice, columns: &[String], known: &[String]) -> Vec<String> {
    let mut keys = columns.to_vec();
    let some = dice.below(keys.len().max(1));
    match dice.below(9) {
        0 | 1 if !keys.is_empty() => {
            keys.remove(some);
        }
        2 if !keys.is_empty() => keys.clear(),
        3 if !keys.is_empty() => keys[some] = another(dice, columns),
        4 if !keys.is_empty() => keys[some] = other_spelling(dice, &keys[some]),
        5 => return known.to_vec(),
        _ => keys.push(another(dice, columns)),
    }
    keys
}

/// A name that is none of these columns, if there is one.
fn another(dice: &mut Dice, columns: &[String]) -> String {
    let others: Vec<&str> = COLUMNS.into_iter().filter(|name| !columns.iter().any(|column| column == name)).collect();
    if others.is_empty() {
        return "beside".to_string();
    }
    dice.pick(&others).to_string()
}

/// A name that is almost this one.
fn other_spelling(dice: &mut Dice, name: &str) -> String {
    match dice.below(4) {
        0 => name.to_uppercase() + "S",
        1 => format!("{name} "),
        2 => format!("\\u0000{name}"),
        _ => name.chars().skip(1).chain(['~']).collect(),
    }
}

/// An add more in a version file above 0, or seldom in a checkpoint. Its keys are the columns before
/// or behind the file, which need not be those in force at its line, or columns of neither.
pub fn foreign_add(dice: &mut Dice, log: &mut Log) {
    let version = 1 + dice.below(log.states.len());
    let before = log.states[version - 1].columns();
    let behind = log.states[version.min(log.states.len() - 1)].columns();
    let keys = match dice.below(6) {
        0 => before,
        1 => behind,
        2 => keys(dice, &before, &log.columns),
        _ => keys(dice, &behind, &log.columns),
    };
    let path = dice.pick(&lines::PATHS[..]);
    let facts = lines::facts(dice, path, &keys);
    let line = lines::add(dice, &facts);
    let version = version as u64;
    let name = if dice.one_in(8) { checkpoint_name(version) } else { version_name(version) };
    if let Some(file) = log.files.iter_mut().find(|file| file.name == name) {
        insert_line(dice, &mut file.body, line.as_bytes());
    } else if dice.one_in(2) {
        log.put(dice, version_name(version), line.into_bytes());
    }
}
