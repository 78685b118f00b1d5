//! Whole logs: version files, checkpoints and a marker, with the state after each version.

use super::dice::Dice;
use super::lines;
use super::meta_data::MetaFacts;
use super::models::Model;
use crate::bundle::{self, File};

pub struct Log {
    pub files: Vec<File>,
    /// The columns of all metaData lines put into the log, each once.
    pub columns: Vec<String>,
    /// The state after each version from 0.
    pub states: Vec<Model>,
}

pub fn version_name(version: u64) -> Vec<u8> {
    format!("{version:020}.json").into_bytes()
}

pub fn checkpoint_name(version: u64) -> Vec<u8> {
    format!("{version:020}.checkpoint.json").into_bytes()
}

pub const MARKER: &[u8] = b"_last_checkpoint";

/// Times of the generated files: few, so that ages meet.
const TIMES: [u64; 6] = [0, 999, 1_000, 1_001, 2_000, u64::MAX];

fn join(dice: &mut Dice, lines: &[String]) -> Vec<u8> {
    let mut body = lines.join("\n");
    if !dice.one_in(6) {
        body.push('\n');
    }
    body.into_bytes()
}

impl Log {
    /// A well-formed log of version 0 and up to `most` versions more.
    pub fn grow(dice: &mut Dice, most: usize) -> Log {
        let count = dice.below(most + 1);
        Log::grow_renamed(dice, count, 8)
    }

    /// As `grow`, with `count` versions above 0, in which one line in `renaming` is a metaData.
    pub fn grow_renamed(dice: &mut Dice, count: usize, renaming: usize) -> Log {
        let mut log = Log { files: Vec::new(), columns: Vec::new(), states: Vec::new() };
        log.grow_version_zero(dice);
        for _ in 0..count {
            log.grow_version(dice, renaming);
        }
        log
    }

    /// As `grow`, with checkpoints here and there, most of them true, and a marker on one of them.
    pub fn grow_with_checkpoints(dice: &mut Dice, most: usize) -> Log {
        let mut log = Log::grow(dice, most);
        let mut kept = Vec::new();
        for version in 0..=log.last() {
            if dice.one_in(3) {
                let mut state = log.states[version as usize].clone();
                if dice.one_in(5) {
                    state.falsify(dice);
                }
                log.put_checkpoint(dice, version, &state);
                kept.push(version);
            }
        }
        if !kept.is_empty() && dice.one_in(2) {
            log.put_marker(kept[dice.below(kept.len())]);
        }
        log
    }

    pub fn last(&self) -> u64 {
        self.states.len() as u64 - 1
    }

    fn grow_version_zero(&mut self, dice: &mut Dice) {
        let meta_data = MetaFacts::first(dice);
        let mut lines = vec![meta_data.line(dice)];
        let mut state = Model::empty(meta_data);
        if dice.one_in(2) {
            state.protocol = lines::protocol_facts(dice, false);
            lines.push(lines::protocol(dice, &state.protocol));
        }
        if dice.one_in(6) {
            lines.push("{\"skip\":{}}".to_string());
        }
        dice.shuffle(&mut lines);
        let body = join(dice, &lines);
        self.put(dice, version_name(0), body);
        self.know_columns(&state);
        self.states.push(state);
    }

    fn grow_version(&mut self, dice: &mut Dice, renaming: usize) {
        let mut state = self.states[self.states.len() - 1].clone();
        let mut lines = Vec::new();
        for _ in 0..1 + dice.below(3) {
            if let (Some(meta_data), true) = (&mut state.meta_data, dice.one_in(renaming)) {
                if !dice.one_in(4) {
                    meta_data.change(dice);
                }
                lines.push(meta_data.line(dice));
                self.know_columns(&state);
                continue;
            }
            let path = dice.pick(&lines::PATHS[..]);
            lines.push(match dice.below(22) {
                0..=11 => {
                    let facts = lines::facts(dice, path, &state.columns());
                    let line = lines::add(dice, &facts);
                    state.live.insert(path.to_string(), facts);
                    line
                }
                12..=16 => {
                    state.live.remove(path);
                    lines::remove(dice, path)
                }
                17 => {
                    state.protocol = lines::protocol_facts(dice, false);
                    lines::protocol(dice, &state.protocol)
                }
                18..=20 => {
                    let path = state.some_path(dice, path);
                    let (skips, retry) = lines::skip_numbers(dice);
                    state.skip(&path, skips, retry);
                    lines::merge_skip(dice, &path, skips, retry)
                }
                _ => lines::other(dice),
            });
        }
        let body = join(dice, &lines);
        self.put(dice, version_name(self.states.len() as u64), body);
        self.states.push(state);
    }

    /// A version more: some files under the columns in force, and mergeskips of most of those that are live.
    pub fn skip_many(&mut self, dice: &mut Dice) {
        let mut state = self.states[self.states.len() - 1].clone();
        let mut lines = Vec::new();
        for path in lines::PATHS.iter().take(dice.below(5)) {
            let facts = lines::facts(dice, path, &state.columns());
            lines.push(lines::add(dice, &facts));
            state.live.insert(path.to_string(), facts);
        }
        let mut paths: Vec<String> = state.live.keys().cloned().collect();
        dice.shuffle(&mut paths);
        paths.truncate(paths.len() - dice.below(paths.len() / 3 + 1));
        for path in &paths {
            let (skips, retry) = lines::skip_numbers(dice);
            lines.push(lines::merge_skip(dice, path, skips, retry));
            state.skip(path, skips, retry);
        }
        if lines.is_empty() {
            lines.push(lines::other(dice));
        }
        let body = join(dice, &lines);
        self.put(dice, version_name(self.states.len() as u64), body);
        self.states.push(state);
    }

    /// One or two versions more: files with values around the ends of the range of numbers, of which some
    /// go or come anew.
    pub fn range_far(&mut self, dice: &mut Dice) {
        for _ in 0..1 + dice.below(2) {
            let mut state = self.states[self.states.len() - 1].clone();
            let mut lines = Vec::new();
            for path in lines::PATHS.iter().take(1 + dice.below(4)) {
                if dice.one_in(3) {
                    state.live.remove(*path);
                    lines.push(lines::remove(dice, path));
                    continue;
                }
                let mut facts = lines::facts(dice, path, &state.columns());
                for (_, value) in facts.values.iter_mut().filter(|(_, value)| value.is_some()) {
                    *value = Some(lines::edge_value(dice));
                }
                lines.push(lines::add(dice, &facts));
                state.live.insert(path.to_string(), facts);
            }
            let body = join(dice, &lines);
            self.put(dice, version_name(self.states.len() as u64), body);
            self.states.push(state);
        }
    }

    fn know_columns(&mut self, state: &Model) {
        for column in state.columns() {
            if !self.columns.contains(&column) {
                self.columns.push(column);
            }
        }
    }

    /// Columns to ask for: those in force at the last version or at another one, or all there are.
    pub fn some_columns(&self, dice: &mut Dice) -> Vec<String> {
        match dice.below(6) {
            0 => self.states[dice.below(self.states.len())].columns(),
            1 => self.columns.clone(),
            _ => self.states[self.states.len() - 1].columns(),
        }
    }

    /// Puts a file, or replaces the one with this name.
    pub fn put(&mut self, dice: &mut Dice, name: Vec<u8>, body: Vec<u8>) {
        let modified = dice.pick_number(&TIMES);
        self.files.retain(|file| file.name != name);
        self.files.push(File { name, modified, body });
    }

    pub fn put_checkpoint(&mut self, dice: &mut Dice, version: u64, state: &Model) {
        let lines = state.checkpoint_lines(dice);
        let body = join(dice, &lines);
        self.put(dice, checkpoint_name(version), body);
        self.know_columns(state);
    }

    pub fn put_marker(&mut self, version: u64) {
        self.put_marker_body(format!("{{\"version\":{version}}}").into_bytes());
    }

    pub fn put_marker_body(&mut self, body: Vec<u8>) {
        self.files.retain(|file| file.name != MARKER);
        self.files.push(File { name: MARKER.to_vec(), modified: 0, body });
    }

    pub fn take_out(&mut self, name: &[u8]) {
        self.files.retain(|file| file.name != name);
    }

    /// The columns in force at the end of a version file or checkpoint that the log grew with.
    pub fn columns_of(&self, name: &[u8]) -> Vec<String> {
        let version =
            (0..=self.last()).find(|&version| name == version_name(version) || name == checkpoint_name(version));
        version.map_or(Vec::new(), |version| self.states[version as usize].columns())
    }

    /// The files whose lines are read: version files and checkpoints.
    pub fn files_with_lines(&mut self) -> Vec<&mut File> {
        self.files.iter_mut().filter(|file| file.name.ends_with(b".json")).collect()
    }

    pub fn bundle(&self) -> Vec<u8> {
        let mut files = self.files.clone();
        files.sort_by(|one, two| one.name.cmp(&two.name));
        files.dedup_by(|one, two| one.name == two.name);
        bundle::write(&files)
    }
}
