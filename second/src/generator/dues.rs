//! Requests for what is due (`q`): of logs that readings are made of, at times around the retry times.

use super::dice::Dice;
use super::readings::{self, odd_room, MOST_TABLE, TABLE};
use super::Kind;
use crate::request::Request;

/// The same bundle, asked for what is due.
fn due(dice: &mut Dice, reading: Request) -> Request {
    let time = dice.pick_number(&[0, 99, 100, 101, 1_000, i64::MAX as u64 - 1, i64::MAX as u64, u64::MAX]);
    let room = reading.numbers[reading.numbers.len() - 1];
    Request::new('q', &[time, room], &[&reading.strings[1]])
}

/// Of a log with many mergeskip lines.
pub fn skipped(dice: &mut Dice) -> Request {
    let reading = readings::skipped(dice);
    due(dice, reading)
}

/// Of any log.
pub fn any(dice: &mut Dice) -> Request {
    const KINDS: [Kind; 9] = [
        readings::plain,
        readings::twisted,
        readings::odd_line,
        readings::gate,
        readings::marker,
        readings::names,
        readings::renamed,
        readings::foreign,
        readings::damaged_bundle,
    ];
    let reading = KINDS[dice.below(KINDS.len())](dice);
    due(dice, reading)
}

/// The protocol in force stands at the gate's limits.
pub fn gate(dice: &mut Dice) -> Request {
    let reading = readings::gate(dice);
    due(dice, reading)
}

/// Names on either side of the rules, and version 0 missing.
pub fn names(dice: &mut Dice) -> Request {
    let reading = readings::names(dice);
    due(dice, reading)
}

/// Rooms around the least one.
pub fn odd_rooms(dice: &mut Dice) -> Request {
    let mut request = if dice.one_in(2) { any(dice) } else { skipped(dice) };
    request.numbers[1] = odd_room(dice, TABLE, MOST_TABLE);
    request
}

/// 1,024 files live.
pub fn all_live(dice: &mut Dice) -> Request {
    let reading = readings::all_live(dice);
    due(dice, reading)
}

/// The 1,025th file.
pub fn too_many_live(dice: &mut Dice) -> Request {
    let reading = readings::too_many_live_at_latest(dice);
    due(dice, reading)
}
