//! Requests to clean (`c`): true and false checkpoints, gates, ages, and nothing to name.

use super::bundles::{self, Behind};
use super::dice::Dice;
use super::foreign::foreign_add;
use super::lines;
use super::logs::{checkpoint_name, version_name, Log, MARKER};
use super::markers::{odd_marker, put_odd_marker};
use super::readings::{enough_room, odd_room, MOST_TABLE, TABLE};
use super::twists::{odd_line_somewhere, odd_names, skip_somewhere, twist};
use crate::request::Request;

const NAMES: u64 = 1_024;

fn request(dice: &mut Dice, bundle: &[u8]) -> Request {
    let now = dice.pick_number(&[0, 999, 1_000, 1_001, 1_002, 2_000, 2_001, 5_000, u64::MAX]);
    let retention = dice.pick_number(&[0, 0, 0, 1, 999, 1_000, 1_001, u64::MAX]);
    let rooms =
        [enough_room(dice, NAMES, 1_100), enough_room(dice, TABLE, MOST_TABLE), enough_room(dice, TABLE, MOST_TABLE)];
    Request::new('c', &[now, retention, rooms[0], rooms[1], rooms[2]], &[bundle])
}

/// A log with a true checkpoint that the marker names, perhaps with others below and above it.
fn marked(dice: &mut Dice, most: usize) -> (Log, u64) {
    let log = Log::grow(dice, most);
    mark(dice, log)
}

/// Puts true checkpoints into a log, and the marker on one of them.
fn mark(dice: &mut Dice, mut log: Log) -> (Log, u64) {
    let last = log.last();
    let marked = if dice.one_in(4) { dice.below(log.states.len()) as u64 } else { last };
    for version in 0..=last {
        if version == marked || dice.one_in(6) {
            let state = log.states[version as usize].clone();
            log.put_checkpoint(dice, version, &state);
        }
    }
    log.put_marker(marked);
    (log, marked)
}

pub fn plain(dice: &mut Dice) -> Request {
    let (log, _) = marked(dice, 6);
    request(dice, &log.bundle())
}

/// The marked checkpoint, or another below it, differs from the history in one fact.
pub fn disagreeing(dice: &mut Dice) -> Request {
    let (mut log, marked) = marked(dice, 4);
    let version = if dice.one_in(4) { dice.below(marked as usize + 1) as u64 } else { marked };
    let mut state = log.states[version as usize].clone();
    state.falsify(dice);
    log.put_checkpoint(dice, version, &state);
    request(dice, &log.bundle())
}

/// Columns renamed along the way; the marked checkpoint, or another below it, has other metadata
/// or none, or is true.
pub fn renamed(dice: &mut Dice) -> Request {
    let count = 1 + dice.below(3);
    let log = Log::grow_renamed(dice, count, 3);
    let (mut log, marked) = mark(dice, log);
    let version = if dice.one_in(3) { dice.below(marked as usize + 1) as u64 } else { marked };
    let mut state = log.states[version as usize].clone();
    if !dice.one_in(3) {
        state.falsify_meta_data(dice);
    }
    if dice.one_in(12) {
        state.protocol = lines::protocol_facts(dice, true);
    }
    log.put_checkpoint(dice, version, &state);
    request(dice, &log.bundle())
}

/// Foreign adds on one of the ways to the checkpoint, in it, or behind it; the checkpoint may be false
/// or stand at the gate's limits as well.
pub fn foreign(dice: &mut Dice) -> Request {
    let count = 1 + dice.below(3);
    let log = Log::grow_renamed(dice, count, 5);
    let (mut log, marked) = mark(dice, log);
    for _ in 0..1 + dice.below(4) / 3 {
        foreign_add(dice, &mut log);
    }
    if dice.one_in(3) {
        let mut state = log.states[marked as usize].clone();
        match dice.below(3) {
            0 => state.falsify(dice),
            1 => state.falsify_meta_data(dice),
            _ => state.protocol = lines::protocol_facts(dice, true),
        }
        log.put_checkpoint(dice, marked, &state);
    }
    if dice.one_in(6) {
        odd_line_somewhere(dice, &mut log);
    }
    request(dice, &log.bundle())
}

/// The marked checkpoint, or another below it, lacks a mergeskip line, or has one that the history lacks,
/// or an odd one, or is true.
pub fn skipped(dice: &mut Dice) -> Request {
    let (mut log, marked) = marked(dice, 5);
    let version = if dice.one_in(4) { dice.below(marked as usize + 1) as u64 } else { marked };
    let mut state = log.states[version as usize].clone();
    match dice.below(6) {
        0..=2 => state.falsify_skip(dice),
        3 => skip_somewhere(dice, &mut log),
        _ => (),
    }
    if !dice.one_in(4) {
        log.put_checkpoint(dice, version, &state);
    }
    request(dice, &log.bundle())
}

pub fn twisted(dice: &mut Dice) -> Request {
    let (mut log, _) = marked(dice, 4);
    for _ in 0..1 + dice.below(6) / 4 {
        twist(dice, &mut log);
    }
    request(dice, &log.bundle())
}

/// The protocol in force at the checkpoint stands at the gate's limits.
pub fn gate(dice: &mut Dice) -> Request {
    let (mut log, marked) = marked(dice, 3);
    let mut state = log.states[marked as usize].clone();
    state.protocol = lines::protocol_facts(dice, true);
    log.put_checkpoint(dice, marked, &state);
    if marked > 0 && !dice.one_in(4) {
        let line = lines::protocol(dice, &state.protocol);
        let name = version_name(marked);
        if let Some(file) = log.files.iter_mut().find(|file| file.name == name) {
            file.body.extend(b"\n");
            file.body.extend(line.bytes());
        }
    }
    request(dice, &log.bundle())
}

/// No usable marker, or no other start: nothing is named, whatever else is wrong.
pub fn nothing_to_name(dice: &mut Dice) -> Request {
    let (mut log, marked) = marked(dice, 4);
    match dice.below(6) {
        0 => odd_marker(dice, &mut log),
        5 => {
            let mut state = log.states[marked as usize].clone();
            state.meta_data = None;
            log.put_checkpoint(dice, marked, &state);
        }
        1 => log.take_out(MARKER),
        2 => log.take_out(&version_name(marked.max(1))),
        3 => log.take_out(&checkpoint_name(marked)),
        _ => log.take_out(&version_name(1 + dice.below(marked as usize + 1) as u64)),
    }
    if dice.one_in(2) {
        twist(dice, &mut log);
    }
    request(dice, &log.bundle())
}

/// An odd marker over a true checkpoint, all files old: what is named shows whether it is usable.
pub fn marker(dice: &mut Dice) -> Request {
    let (mut log, marked) = marked(dice, 6);
    put_odd_marker(dice, &mut log, marked);
    log.files.iter_mut().for_each(|file| file.modified = 0);
    Request::new('c', &[1, 0, NAMES, TABLE, TABLE], &[&log.bundle()])
}

/// Ages one below, equal to and one above the retention, and files of the future.
pub fn ages(dice: &mut Dice) -> Request {
    let (mut log, _) = marked(dice, 6);
    let now = dice.pick_number(&[10_000, 1_000, u64::MAX]);
    let retention = dice.pick_number(&[0, 1, 500, 1_000, u64::MAX]);
    for file in &mut log.files {
        let age = retention.saturating_sub(1).saturating_add(dice.below(3) as u64);
        file.modified = match dice.below(6) {
            0 => now.saturating_add(1),
            1 => now,
            _ => now.saturating_sub(age),
        };
    }
    Request::new('c', &[now, retention, NAMES, TABLE, TABLE], &[&log.bundle()])
}

/// Names on either side of the rules, and version 0 missing.
pub fn names(dice: &mut Dice) -> Request {
    let (mut log, _) = marked(dice, 2);
    if dice.one_in(4) {
        log.take_out(&version_name(0));
    }
    odd_names(dice, &mut log);
    request(dice, &log.bundle())
}

pub fn damaged_bundle(dice: &mut Dice) -> Request {
    let (log, _) = marked(dice, 2);
    let bundle = bundles::damaged(dice, &log);
    request(dice, &bundle)
}

pub fn odd_rooms(dice: &mut Dice) -> Request {
    let mut request = if dice.one_in(2) { twisted(dice) } else { plain(dice) };
    for room in 2..5 {
        if dice.one_in(2) {
            let (least, most) = if room == 2 { (NAMES, 1_100) } else { (TABLE, MOST_TABLE) };
            request.numbers[room] = odd_room(dice, least, most);
        }
    }
    request
}

/// 1,024 files live at the checkpoint, or one more on one of the ways to it.
pub fn full(dice: &mut Dice) -> Request {
    let behind = if dice.one_in(2) { Behind::NoMore } else { Behind::More(1) };
    let log = bundles::full_of_files(dice, behind, true);
    request(dice, &log.bundle())
}

/// One file too many: in the checkpoint, on the other way, or in both, where the way may be
/// malformed as well.
pub fn too_many_live(dice: &mut Dice) -> Request {
    let mut log = bundles::full_of_files(dice, Behind::More(1), true);
    match dice.below(3) {
        0 => {
            let state = log.states[2].clone();
            log.put_checkpoint(dice, 2, &state);
        }
        1 => log.put(dice, version_name(1), b"malformed".to_vec()),
        _ => (),
    }
    request(dice, &log.bundle())
}

/// A foreign add behind 1,024 live files, in the checkpoint as well or only on the way to it.
pub fn foreign_when_full(dice: &mut Dice) -> Request {
    let mut log = bundles::full_of_files(dice, Behind::Foreign, true);
    if dice.one_in(2) {
        let state = log.states[2].clone();
        log.put_checkpoint(dice, 2, &state);
    }
    request(dice, &log.bundle())
}
