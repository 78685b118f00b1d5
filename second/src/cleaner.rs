//! The cleaner: names the old version files that the marker's checkpoint makes needless.

use crate::gate;
use crate::history;
use crate::log::{Log, Start};
use crate::reading::TABLE;
use crate::refusal::{Refusal, CHECKPOINT_DISAGREES, NOT_WRITABLE, ROOM_TOO_SHORT};

/// The least room for entry numbers.
pub const MOST_NAMED: usize = 1_024;

/// The rooms lent to the cleaner: for entry numbers, and two reading tables.
pub struct Rooms<'a> {
    pub names: &'a mut [u32],
    pub tables: [&'a mut [u64]; 2],
}

/// Puts the entry numbers of the files that may go into the room, ascending, and gives their count.
pub fn clean(now: u64, retention: u64, bundle: &[u8], rooms: Rooms) -> Result<u64, Refusal> {
    if rooms.names.len() < MOST_NAMED || rooms.tables.iter().any(|table| table.len() < TABLE) {
        return Err(ROOM_TOO_SHORT);
    }
    rooms.names[..MOST_NAMED].fill(0);
    for table in rooms.tables {
        table[..TABLE].fill(0);
    }
    let named = files_that_may_go(now, retention, bundle)?;
    for (place, &entry) in rooms.names.iter_mut().zip(&named) {
        *place = entry as u32;
    }
    Ok(named.len() as u64)
}

fn files_that_may_go(now: u64, retention: u64, bundle: &[u8]) -> Result<Vec<usize>, Refusal> {
    let log = Log::read(bundle)?;
    let checkpoint = match log.marked_checkpoint() {
        Some(checkpoint) => checkpoint,
        None => return Ok(Vec::new()),
    };
    let other_start = log
        .starts()
        .into_iter()
        .find(|&start| start != Start::Checkpoint(checkpoint) && log.reaches(start, checkpoint));
    let other_start = match other_start {
        Some(start) => start,
        None => return Ok(Vec::new()),
    };

    let version_zero = history::read_version_zero(&log)?;
    let state = history::read_checkpoint(&log, checkpoint)?;
    let other_state = history::read_way(&log, &version_zero, other_start, checkpoint)?;
    gate::readable(&state.protocol)?;
    if !gate::writable(&state.protocol) {
        return Err(NOT_WRITABLE);
    }
    if !state.agrees_with(&other_state) {
        return Err(CHECKPOINT_DISAGREES);
    }
    let is_old = |entry: &usize| {
        let modified = log.entries[*entry].modified;
        now >= modified && now - modified > retention
    };
    let mut named: Vec<usize> = log
        .versions
        .iter()
        .filter(|(&version, _)| 0 < version && version < checkpoint)
        .map(|(_, &entry)| entry)
        .filter(is_old)
        .collect();
    named.sort();
    Ok(named)
}
