//! Requests to read: at a version (`r`) or at the latest one (`l`).

use super::bundles::{self, Behind};
use super::dice::Dice;
use super::foreign::foreign_add;
use super::logs::{version_name, Log};
use super::markers::put_odd_marker;
use super::queries;
use super::twists::{later_meta_data, odd_line_somewhere, odd_names, put_gate_edge, skip_somewhere, twist};
use crate::request::Request;

/// The least room of a reading table, and the most that the probe lends.
pub const TABLE: u64 = 6_144;
pub const MOST_TABLE: u64 = 6_300;

/// A room that is long enough, now and then longer.
pub fn enough_room(dice: &mut Dice, least: u64, most: u64) -> u64 {
    if dice.one_in(12) {
        least + dice.below((most - least + 1) as usize) as u64
    } else {
        least
    }
}

/// A room around the least one, or far below it.
pub fn odd_room(dice: &mut Dice, least: u64, most: u64) -> u64 {
    dice.pick_number(&[0, 1, 4, least / 2, least - 1, least, least + 1, most])
}

fn some_version(dice: &mut Dice, last: u64) -> u64 {
    match dice.below(12) {
        0 => dice.pick_number(&[i64::MAX as u64 - 1, i64::MAX as u64, i64::MAX as u64 + 1, u64::MAX, 8, 10]),
        1 => last + 1,
        2..=6 => last,
        _ => dice.below(last as usize + 1) as u64,
    }
}

fn ask(dice: &mut Dice, last: u64, query: &[u8], bundle: &[u8]) -> Request {
    let room = enough_room(dice, TABLE, MOST_TABLE);
    if dice.one_in(3) {
        Request::new('l', &[room], &[query, bundle])
    } else {
        Request::new('r', &[some_version(dice, last), room], &[query, bundle])
    }
}

/// A log within the rules.
pub fn plain(dice: &mut Dice) -> Request {
    let log = Log::grow_with_checkpoints(dice, 5);
    let columns = log.some_columns(dice);
    let query = queries::some(dice, &columns);
    ask(dice, log.last(), &query, &log.bundle())
}

/// A log with one to three twists.
pub fn twisted(dice: &mut Dice) -> Request {
    let mut log = Log::grow_with_checkpoints(dice, 4);
    for _ in 0..1 + dice.below(6) / 3 {
        twist(dice, &mut log);
    }
    let columns = log.some_columns(dice);
    let query = queries::some(dice, &columns);
    ask(dice, log.last(), &query, &log.bundle())
}

/// A short log with one odd line in a file that is read, or in a checkpoint that would be.
pub fn odd_line(dice: &mut Dice) -> Request {
    let mut log = Log::grow(dice, 2);
    if dice.one_in(4) {
        let state = log.states[log.last() as usize].clone();
        log.put_checkpoint(dice, log.last(), &state);
    }
    odd_line_somewhere(dice, &mut log);
    ask(dice, log.last(), b"[]", &log.bundle())
}

/// The protocol in force at the last version stands at the gate's limits, or stood there before.
pub fn gate(dice: &mut Dice) -> Request {
    let mut log = Log::grow_with_checkpoints(dice, 3);
    for _ in 0..1 + dice.below(2) {
        put_gate_edge(dice, &mut log);
    }
    let columns = log.some_columns(dice);
    let query = queries::some(dice, &columns);
    ask(dice, log.last(), &query, &log.bundle())
}

/// An odd marker over a checkpoint above a gap: the latest version shows whether it is usable.
pub fn marker(dice: &mut Dice) -> Request {
    let mut log = Log::grow(dice, 4);
    let version = log.last();
    let mut state = log.states[version as usize].clone();
    if dice.one_in(8) {
        state.meta_data = None;
    }
    log.put_checkpoint(dice, version, &state);
    log.take_out(&version_name(version.max(1)));
    put_odd_marker(dice, &mut log, version);
    let room = enough_room(dice, TABLE, MOST_TABLE);
    Request::new('l', &[room], &[b"[]", &log.bundle()])
}

/// Names on either side of the rules, and version 0 missing.
pub fn names(dice: &mut Dice) -> Request {
    let mut log = Log::grow_with_checkpoints(dice, 2);
    if dice.one_in(4) {
        log.take_out(&version_name(0));
    }
    odd_names(dice, &mut log);
    ask(dice, log.last(), b"[]", &log.bundle())
}

/// Queries at their edges, over a log with many values.
pub fn queried(dice: &mut Dice) -> Request {
    let log = Log::grow_with_checkpoints(dice, 3);
    let columns = log.some_columns(dice);
    let query = if dice.one_in(2) { queries::odd(dice, &columns) } else { queries::on_columns(dice, &columns) };
    ask(dice, log.last(), &query, &log.bundle())
}

/// Columns renamed along the way, checkpoints with their own, and a condition on a column that
/// is in force at the version asked for, or was, or will be.
pub fn renamed(dice: &mut Dice) -> Request {
    let count = 1 + dice.below(4);
    let mut log = Log::grow_renamed(dice, count, 3);
    for version in 0..=log.last() {
        if dice.one_in(4) {
            let mut state = log.states[version as usize].clone();
            if dice.one_in(2) {
                state.falsify_meta_data(dice);
            }
            log.put_checkpoint(dice, version, &state);
            if dice.one_in(2) {
                log.put_marker(version);
            }
            if dice.one_in(2) {
                log.take_out(&version_name(1 + dice.below(version as usize + 1) as u64));
            }
        }
    }
    if dice.one_in(8) {
        later_meta_data(dice, &mut log);
    }
    let version = dice.below(log.states.len());
    let columns = if dice.one_in(2) { log.states[version].columns() } else { log.columns.clone() };
    let query = queries::on_one(dice, &columns);
    if dice.one_in(4) {
        Request::new('l', &[TABLE], &[&query, &log.bundle()])
    } else {
        Request::new('r', &[version as u64, TABLE], &[&query, &log.bundle()])
    }
}

/// Adds under other columns than those in force, or under those of another line, here and there in
/// files that are read or not; other things may be wrong as well.
pub fn foreign(dice: &mut Dice) -> Request {
    let count = 1 + dice.below(3);
    let renaming = 3 + dice.below(9);
    let mut log = Log::grow_renamed(dice, count, renaming);
    if dice.one_in(3) {
        let version = dice.below(log.states.len());
        let state = log.states[version].clone();
        log.put_checkpoint(dice, version as u64, &state);
    }
    for _ in 0..1 + dice.below(4) / 3 {
        foreign_add(dice, &mut log);
    }
    match dice.below(12) {
        0..=2 => odd_line_somewhere(dice, &mut log),
        3 => put_gate_edge(dice, &mut log),
        4 => later_meta_data(dice, &mut log),
        5 => log.take_out(&version_name(1 + dice.below(log.states.len()) as u64)),
        _ => (),
    }
    let columns = log.some_columns(dice);
    let query = queries::some(dice, &columns);
    ask(dice, log.last(), &query, &log.bundle())
}

/// Number conditions over values around the ends of the range, of files that are live, that went, or that
/// come later; the gate may stand before them.
pub fn ranged(dice: &mut Dice) -> Request {
    let mut log = Log::grow_with_checkpoints(dice, 2);
    log.range_far(dice);
    match dice.below(12) {
        0 => put_gate_edge(dice, &mut log),
        1 => odd_line_somewhere(dice, &mut log),
        2 | 3 => {
            let (last, state) = (log.last(), log.states[log.states.len() - 1].clone());
            log.put_checkpoint(dice, last, &state);
        }
        4 => later_meta_data(dice, &mut log),
        _ => (),
    }
    let columns = log.some_columns(dice);
    let query = queries::on_numbers(dice, &columns);
    ask(dice, log.last(), &query, &log.bundle())
}

/// Mergeskip lines in many places, within the rules or odd, in checkpoints as well.
pub fn skipped(dice: &mut Dice) -> Request {
    let mut log = Log::grow_with_checkpoints(dice, 4);
    if !dice.one_in(4) {
        log.skip_many(dice);
    }
    for _ in 0..dice.below(4) {
        skip_somewhere(dice, &mut log);
    }
    ask(dice, log.last(), b"[]", &log.bundle())
}

pub fn damaged_bundle(dice: &mut Dice) -> Request {
    let log = Log::grow_with_checkpoints(dice, 2);
    let bundle = bundles::damaged(dice, &log);
    let columns = log.some_columns(dice);
    let query = queries::some(dice, &columns);
    ask(dice, log.last(), &query, &bundle)
}

/// Rooms around the least one, over logs and queries of any kind.
pub fn odd_rooms(dice: &mut Dice) -> Request {
    let mut request = if dice.one_in(2) { twisted(dice) } else { queried(dice) };
    let last = request.numbers.len() - 1;
    request.numbers[last] = odd_room(dice, TABLE, MOST_TABLE);
    request
}

fn with_entries(dice: &mut Dice, count: usize) -> Request {
    let log = Log::grow(dice, 1);
    let bundle = bundles::with_entries(&log, count);
    ask(dice, log.last(), b"[]", &bundle)
}

pub fn most_entries(dice: &mut Dice) -> Request {
    with_entries(dice, 1_024)
}

pub fn one_entry_too_many(dice: &mut Dice) -> Request {
    with_entries(dice, 1_025)
}

fn with_largest_file(dice: &mut Dice, beyond: usize) -> Request {
    let log = Log::grow(dice, 1);
    let bundle = bundles::largest(&log, beyond);
    ask(dice, log.last(), b"[]", &bundle)
}

pub fn most_bytes(dice: &mut Dice) -> Request {
    with_largest_file(dice, 0)
}

pub fn one_byte_too_many(dice: &mut Dice) -> Request {
    with_largest_file(dice, 1)
}

fn full(dice: &mut Dice, behind: Behind) -> Vec<u8> {
    let in_checkpoint = dice.one_in(2);
    bundles::full_of_files(dice, behind, in_checkpoint).bundle()
}

/// 1,024 files live: accepted.
pub fn all_live(dice: &mut Dice) -> Request {
    let bundle = full(dice, Behind::NoMore);
    ask(dice, 2, b"[]", &bundle)
}

/// The 1,025th file, at a version.
pub fn too_many_live_at_version(dice: &mut Dice) -> Request {
    let bundle = full(dice, Behind::More(1));
    Request::new('r', &[2, TABLE], &[b"[]", &bundle])
}

/// The 1,025th file, at the latest version.
pub fn too_many_live_at_latest(dice: &mut Dice) -> Request {
    let bundle = full(dice, Behind::More(2));
    Request::new('l', &[TABLE], &[b"[]", &bundle])
}

/// A foreign add behind 1,024 live files.
pub fn foreign_when_full(dice: &mut Dice) -> Request {
    let in_checkpoint = dice.one_in(4);
    let bundle = bundles::full_of_files(dice, Behind::Foreign, in_checkpoint).bundle();
    ask(dice, 2, b"[]", &bundle)
}
