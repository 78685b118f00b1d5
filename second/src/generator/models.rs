//! The state a generated log is meant to have, and checkpoints true or false to it.

use std::collections::BTreeMap;

use super::dice::Dice;
use super::lines::{self, FileFacts, ProtocolFacts};
use super::meta_data::MetaFacts;

#[derive(Clone, Debug)]
pub struct Model {
    pub live: BTreeMap<String, FileFacts>,
    pub protocol: ProtocolFacts,
    /// The metadata in force; none is what a checkpoint without a metaData line has.
    pub meta_data: Option<MetaFacts>,
}

impl Model {
    /// No files and no protocol said, under this metadata.
    pub fn empty(meta_data: MetaFacts) -> Model {
        let protocol = ProtocolFacts { reader: 1, writer: 1, reader_features: Vec::new(), writer_features: Vec::new() };
        Model { live: BTreeMap::new(), protocol, meta_data: Some(meta_data) }
    }

    /// The partition columns in force.
    pub fn columns(&self) -> Vec<String> {
        self.meta_data.as_ref().map_or(Vec::new(), |meta_data| meta_data.columns.clone())
    }

    fn has_plain_protocol(&self) -> bool {
        let protocol = &self.protocol;
        protocol.reader == 1
            && protocol.writer == 1
            && protocol.reader_features.is_empty()
            && protocol.writer_features.is_empty()
    }

    /// The lines of a checkpoint with this state, in a chance order.
    pub fn checkpoint_lines(&self, dice: &mut Dice) -> Vec<String> {
        let mut lines = Vec::new();
        if !self.has_plain_protocol() || dice.one_in(2) {
            lines.push((None, lines::protocol(dice, &self.protocol)));
        }
        for facts in self.live.values() {
            lines.push((Some(facts), lines::add(dice, facts)));
        }
        if (lines.is_empty() && self.meta_data.is_none()) || dice.one_in(6) {
            lines.push((None, lines::other(dice)));
        }
        dice.shuffle(&mut lines);
        let mut lines = with_skips(dice, lines);
        if dice.one_in(6) {
            let passing = lines::facts(dice, "passing", &[]);
            lines.splice(0..0, [lines::add(dice, &passing), lines::remove(dice, "passing")]);
        }
        if let Some(meta_data) = &self.meta_data {
            put_meta_data(dice, meta_data, &mut lines);
        }
        lines
    }

    /// One of the live paths, or seldom, or where there is none, this one.
    pub fn some_path(&self, dice: &mut Dice, otherwise: &str) -> String {
        if self.live.is_empty() || dice.one_in(5) {
            return otherwise.to_string();
        }
        self.live.keys().nth(dice.below(self.live.len())).cloned().unwrap_or_default()
    }

    /// A mergeskip line for this path.
    pub fn skip(&mut self, path: &str, skips: u64, retry: u64) {
        if let Some(facts) = self.live.get_mut(path) {
            (facts.skips, facts.retry) = (skips, retry);
        }
    }

    /// Another skip count or retry time of a live file, or neither.
    pub fn falsify_skip(&mut self, dice: &mut Dice) {
        let path = self.some_path(dice, "a");
        if let Some(facts) = self.live.get_mut(&path) {
            falsify_skip(dice, facts);
        }
    }

    /// Changes exactly one fact, of a kind taken by chance.
    pub fn falsify(&mut self, dice: &mut Dice) {
        match dice.below(8) {
            0 | 1 => self.falsify_meta_data(dice),
            2..=5 if !self.live.is_empty() => {
                let path = self.live.keys().nth(dice.below(self.live.len())).cloned().unwrap_or_default();
                if let Some(mut facts) = self.live.remove(&path) {
                    if falsify_file(dice, &mut facts) {
                        self.live.insert(facts.path.clone(), facts);
                    }
                }
            }
            _ => self.falsify_protocol(dice),
        }
    }

    /// Other metadata, or none at all.
    pub fn falsify_meta_data(&mut self, dice: &mut Dice) {
        match &mut self.meta_data {
            Some(meta_data) if !dice.one_in(4) => meta_data.change(dice),
            _ => self.meta_data = None,
        }
    }

    fn falsify_protocol(&mut self, dice: &mut Dice) {
        let protocol = &mut self.protocol;
        match dice.below(5) {
            0 => protocol.reader = protocol.reader % 3 + 1,
            1 => protocol.writer = protocol.writer % 3 + 1,
            2 => change_features(&mut protocol.reader_features, "footerOffsets"),
            3 => change_features(&mut protocol.writer_features, "checkpoint"),
            _ => {
                let facts = lines::facts(dice, "extra", &[]);
                self.live.insert("extra".to_string(), facts);
            }
        }
    }
}

/// The lines with the mergeskip line of each file that has one behind its add; now and then another before
/// it, which it overwrites, or before the add, which clears it.
fn with_skips(dice: &mut Dice, lines: Vec<(Option<&FileFacts>, String)>) -> Vec<String> {
    let mut written: Vec<String> = lines.iter().map(|(_, line)| line.clone()).collect();
    for (facts, line) in &lines {
        let facts = match facts {
            Some(facts) => facts,
            None => continue,
        };
        let place = written.iter().position(|other| other == line).unwrap_or(0);
        let mut behind = Vec::new();
        if dice.one_in(10) {
            let (skips, retry) = lines::skip_numbers(dice);
            behind.push(lines::merge_skip(dice, &facts.path, skips, retry));
        }
        if (facts.skips, facts.retry) != (0, 0) || !behind.is_empty() || dice.one_in(12) {
            behind.push(lines::merge_skip(dice, &facts.path, facts.skips, facts.retry));
        }
        let mut from = place + 1;
        for line in behind {
            from += dice.below(written.len() - from + 1);
            written.insert(from, line);
            from += 1;
        }
        if dice.one_in(10) {
            let (skips, retry) = lines::skip_numbers(dice);
            let line = lines::merge_skip(dice, &facts.path, skips, retry);
            written.insert(dice.below(place + 1), line);
        }
    }
    written
}

/// Puts the metaData line among the others; now and then another or the same before it.
fn put_meta_data(dice: &mut Dice, meta_data: &MetaFacts, lines: &mut Vec<String>) {
    let place = dice.below(lines.len() + 1);
    lines.insert(place, meta_data.line(dice));
    if dice.one_in(6) {
        let mut earlier = meta_data.clone();
        if !dice.one_in(3) {
            earlier.change(dice);
        }
        lines.insert(dice.below(place + 1), earlier.line(dice));
    }
}

fn change_features(features: &mut Vec<String>, name: &str) {
    let before = features.len();
    features.retain(|feature| feature != name);
    if features.len() == before {
        features.push(name.to_string());
    }
}

/// Changes one or both of the numbers that a mergeskip line sets.
fn falsify_skip(dice: &mut Dice, facts: &mut FileFacts) {
    match dice.below(4) {
        0 => facts.skips ^= 1,
        1 => facts.retry ^= 1,
        2 if (facts.skips, facts.retry) != (0, 0) => (facts.skips, facts.retry) = (0, 0),
        _ => (facts.skips, facts.retry) = (facts.skips ^ 1, 100),
    }
}

/// Changes one fact of a file; false if the file is to go altogether.
fn falsify_file(dice: &mut Dice, facts: &mut FileFacts) -> bool {
    match dice.below(12) {
        0 => return false,
        1 => facts.size ^= 1,
        2 => facts.time ^= 1,
        3 => facts.records = if facts.records.is_some() { None } else { Some(0) },
        4 => facts.records = Some(facts.records.unwrap_or(0) ^ 1),
        5 => facts.path.push('\''),
        9..=11 => falsify_skip(dice, facts),
        6 => facts.values.push(("beside".to_string(), None)),
        _ => match facts.values.first_mut() {
            None => facts.values.push(("beside".to_string(), Some(String::new()))),
            Some((_, value)) => match dice.below(3) {
                0 => *value = if value.is_some() { None } else { Some("null".to_string()) },
                1 => *value = Some("other".to_string()),
                _ => {
                    facts.values.remove(0);
                }
            },
        },
    }
    true
}
