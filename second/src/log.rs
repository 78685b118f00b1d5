//! The log in a bundle: its version files, checkpoints and marker, the starts, and which
//! versions they reach.

use std::collections::BTreeMap;

use crate::actions::{self, Action};
use crate::bundle::{self, Entry};
use crate::fields::{find, missing_or_null, need};
use crate::json;
use crate::lines;
use crate::names::{self, Name};
use crate::refusal::{Refusal, BUNDLE_MALFORMED, NO_VERSION_ZERO, VERSION_TOO_LARGE};

/// Where a history may begin.
#[derive(Clone, Copy, Debug, PartialEq, Eq)]
pub enum Start {
    VersionZero,
    Checkpoint(u64),
}

impl Start {
    pub fn version(self) -> u64 {
        match self {
            Start::VersionZero => 0,
            Start::Checkpoint(version) => version,
        }
    }
}

/// The files of a log, by version; the numbers are entry numbers.
pub struct Log<'a> {
    pub entries: Vec<Entry<'a>>,
    pub versions: BTreeMap<u64, usize>,
    pub checkpoints: BTreeMap<u64, usize>,
    marker: Option<usize>,
}

impl<'a> Log<'a> {
    /// Reads contents and names: refusals 2, 3 and 4.
    pub fn read(bundle: &'a [u8]) -> Result<Log<'a>, Refusal> {
        let entries = bundle::read(bundle).ok_or(BUNDLE_MALFORMED)?;
        let mut log = Log { entries, versions: BTreeMap::new(), checkpoints: BTreeMap::new(), marker: None };
        for (number, entry) in log.entries.iter().enumerate() {
            match names::read(entry.name) {
                Name::Version(version) => {
                    log.versions.insert(version, number);
                }
                Name::Checkpoint(version) => {
                    log.checkpoints.insert(version, number);
                }
                Name::Marker => log.marker = Some(number),
                Name::TooLarge => return Err(VERSION_TOO_LARGE),
                Name::Other => (),
            }
        }
        if !log.versions.contains_key(&0) {
            return Err(NO_VERSION_ZERO);
        }
        Ok(log)
    }

    /// A checkpoint is a start when every line is well formed and one of them is a metaData.
    fn is_start(&self, checkpoint: u64) -> bool {
        let entry = match self.checkpoints.get(&checkpoint) {
            Some(&entry) => entry,
            None => return false,
        };
        let lines = lines::of(self.entries[entry].body);
        let actions: Option<Vec<Action>> = lines.iter().map(|line| actions::read(line.bytes)).collect();
        actions.map_or(false, |actions| actions.iter().any(|action| matches!(action, Action::MetaData(_))))
    }

    /// All starts, the highest first; on equal versions the checkpoint goes first.
    pub fn starts(&self) -> Vec<Start> {
        let mut starts = vec![Start::VersionZero];
        for &version in self.checkpoints.keys() {
            if self.is_start(version) {
                starts.push(Start::Checkpoint(version));
            }
        }
        starts.reverse();
        starts
    }

    /// The highest version reached from a start: reading stops at a gap.
    fn highest_reached(&self, start: Start) -> u64 {
        let mut version = start.version();
        while self.versions.contains_key(&(version + 1)) {
            version += 1;
        }
        version
    }

    pub fn reaches(&self, start: Start, version: u64) -> bool {
        start.version() <= version && version <= self.highest_reached(start)
    }

    /// The checkpoint that the marker names, if the marker is usable.
    pub fn marked_checkpoint(&self) -> Option<u64> {
        let marker = json::read(self.entries[self.marker?].body)?;
        let members = marker.as_object()?;
        let version = need(members, "version")?.as_whole_number()?;
        if find(members, "parts").ok()?.is_some() {
            return None;
        }
        if let Some(format) = missing_or_null(members, "format")? {
            if format.as_text()?.decoded != b"json" {
                return None;
            }
        }
        self.is_start(version).then_some(version)
    }

    pub fn latest_version(&self) -> u64 {
        let start = self.marked_checkpoint().map_or(Start::VersionZero, Start::Checkpoint);
        self.highest_reached(start)
    }
}
