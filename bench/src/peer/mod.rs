//! The peer: a plain reader of the same logs, as one would write it over serde_json. Typed, strings borrowed where they hold no escape,
//! live files in a map by path. It follows the rules for the bundles of this benchmark, all of which are well formed; where a bundle is
//! not, it says only that it is not.

mod actions;
mod log;
mod query;

use std::borrow::Cow;
use std::collections::BTreeMap;

use crate::Listing;
use actions::{Action, Pairs, Protocol};
use log::{Body, Log};
use query::Condition;

const MOST_LIVE: usize = 1_024;
const ROW: usize = 6;
const ROOM: usize = MOST_LIVE * ROW;

/// A live file, with where its line stands in the bundle.
struct Row<'a> {
    place: u64,
    length: u64,
    size: u64,
    time: u64,
    /// How often merging has skipped the file, and from when on it may be tried again.
    skip_count: u64,
    retry_after: u64,
    values: Pairs<'a>,
}

#[derive(Default)]
struct State<'a> {
    live: BTreeMap<Cow<'a, str>, Row<'a>>,
    protocol: Protocol<'a>,
    /// The partition columns of the last metaData, once there was one.
    columns: Option<Vec<Cow<'a, str>>>,
}

pub type Answer<T> = Result<T, String>;

impl<'a> State<'a> {
    /// The lines of a file, in order; `held` where its adds must have exactly the partition columns in force, as those of a version file.
    fn apply(&mut self, body: Body<'a>, held: bool) -> Answer<()> {
        let mut place = body.place;
        for line in body.text()?.split('\n') {
            if !line.is_empty() {
                self.apply_line(line, place, held)?;
            }
            place += line.len() + 1;
        }
        Ok(())
    }

    fn apply_line(&mut self, line: &'a str, place: usize, held: bool) -> Answer<()> {
        match Action::read(line)? {
            Action::Add(add) => {
                if held && !self.fits(&add.partition_values) {
                    return Err("foreign partition keys".to_string());
                }
                let row = Row {
                    place: place as u64,
                    length: line.len() as u64,
                    size: add.size,
                    time: add.modification_time,
                    skip_count: 0,
                    retry_after: 0,
                    values: add.partition_values,
                };
                self.live.insert(add.path, row);
                if self.live.len() > MOST_LIVE {
                    return Err("too many live".to_string());
                }
            }
            Action::Remove(remove) => {
                self.live.remove(&remove.path);
            }
            Action::Mergeskip(skip) => {
                if let Some(row) = self.live.get_mut(&skip.path) {
                    row.skip_count = skip.skip_count.into();
                    row.retry_after = skip.retry_after.unwrap_or(0);
                }
            }
            Action::Protocol(protocol) => self.protocol = protocol,
            Action::MetaData(table) => self.columns = Some(table.partition_columns),
            Action::Other => (),
        }
        Ok(())
    }

    /// Both are distinct already, so as many keys as columns and each of them a column are all.
    fn fits(&self, values: &Pairs) -> bool {
        let columns = self.columns.as_deref().unwrap_or_default();
        values.0.len() == columns.len() && values.0.iter().all(|(key, _)| columns.contains(key))
    }
}

/// Version 0: one metaData and its protocol, if it has one.
fn read_zero<'a>(body: Body<'a>) -> Answer<State<'a>> {
    let (mut columns, mut protocol) = (None, None);
    for line in body.text()?.split('\n').filter(|line| !line.is_empty()) {
        match Action::read(line)? {
            Action::MetaData(table) if columns.is_none() => columns = Some(table.partition_columns),
            Action::Protocol(first) if protocol.is_none() => protocol = Some(first),
            Action::Other => (),
            _ => return Err("version 0 holds something else".to_string()),
        }
    }
    let columns = Some(columns.ok_or("no metaData")?);
    Ok(State { live: BTreeMap::new(), protocol: protocol.unwrap_or_default(), columns })
}

/// The state at `version`, from the highest start that reaches it; `judged` is a checkpoint that was read already.
fn state_at<'a>(
    log: &Log<'a>,
    version: u64,
    zero: State<'a>,
    mut judged: Option<(u64, State<'a>)>,
) -> Answer<State<'a>> {
    let mut at = version;
    let mut state = loop {
        if let Some((_, state)) = judged.take_if(|(c, _)| *c == at) {
            break state;
        }
        if let Some(state) = log.checkpoints.get(&at).and_then(|body| checkpoint(*body)) {
            break state;
        }
        if at == 0 {
            break zero;
        }
        if !log.versions.contains_key(&at) {
            return Err("not kept".to_string());
        }
        at -= 1;
    };
    for next in at + 1..=version {
        state.apply(log.versions[&next], true)?;
    }
    Ok(state)
}

/// The state of a checkpoint, if every line of it is well formed and one is a metaData.
fn checkpoint<'a>(body: Body<'a>) -> Option<State<'a>> {
    let mut state = State::default();
    state.apply(body, false).ok()?;
    state.columns.is_some().then_some(state)
}

pub fn read_latest(bundle: &[u8], query: &[u8], rows: &mut [u64]) -> Answer<Listing> {
    let conditions = query::read(query)?;
    let log = Log::open(bundle)?;
    let marked = log.marked()?.and_then(|c| Some((c, checkpoint(*log.checkpoints.get(&c)?)?)));
    let mut version = marked.as_ref().map_or(0, |(c, _)| *c);
    while log.versions.contains_key(&(version + 1)) {
        version += 1;
    }
    let zero = read_zero(*log.versions.get(&0).ok_or("no version 0")?)?;
    let state = state_at(&log, version, zero, marked)?;
    state.protocol.readable()?;
    if conditions.iter().any(|c| !state.columns.iter().flatten().any(|column| *column == c.column)) {
        return Err("no such column".to_string());
    }
    let count = write(&state, &conditions, rows);
    let protocol = &state.protocol;
    Ok(Listing {
        version,
        rows: count,
        reader: protocol.min_reader_version,
        writer: protocol.min_writer_version,
        writable: protocol.writable(),
    })
}

/// The picked files in path order, six numbers each, and zeros behind them.
fn write(state: &State, conditions: &[Condition], rows: &mut [u64]) -> usize {
    let mut count = 0;
    for row in state.live.values().filter(|row| conditions.iter().all(|c| c.is_met(&row.values))) {
        let numbers = [row.place, row.length, row.size, row.time, row.skip_count, row.retry_after];
        rows[ROW * count..ROW * count + ROW].copy_from_slice(&numbers);
        count += 1;
    }
    rows[ROW * count..ROOM].fill(0);
    count
}
