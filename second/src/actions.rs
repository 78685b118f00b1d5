//! One line of a version file or checkpoint: a JSON object with exactly one member.

use std::collections::{BTreeMap, BTreeSet};
use std::ops::Range;

use crate::fields::{find, keys_differ, missing_or_null, need};
use crate::json::{self, Member, Text, Value};

const LONGEST_PATH: usize = 512;
const HIGHEST_PROTOCOL: u64 = 2_147_483_647;
const HIGHEST_SKIP_COUNT: u64 = 2_147_483_647;
const MOST_COLUMNS: usize = 16;

pub type PartitionValues = BTreeMap<Vec<u8>, Option<Vec<u8>>>;

#[derive(Clone, Debug, PartialEq, Eq)]
pub struct Add {
    pub path: Vec<u8>,
    /// Where the raw path stands in the line, between its quotes.
    pub raw_path: Range<usize>,
    pub size: u64,
    pub modification_time: u64,
    pub records: Option<u64>,
    pub values: PartitionValues,
}

/// How often a merge passed a file over, and from when on it may be tried again.
#[derive(Clone, Copy, Debug, PartialEq, Eq)]
pub struct Skip {
    pub count: u64,
    pub retry_after: u64,
}

impl Skip {
    /// What a file has of which no line said anything since its add.
    pub const NONE: Skip = Skip { count: 0, retry_after: 0 };

    /// May the file be tried again at this time?
    pub fn is_due_at(self, time: u64) -> bool {
        self.count > 0 && self.retry_after <= time
    }
}

#[derive(Clone, Debug, PartialEq, Eq)]
pub struct Protocol {
    pub reader: u64,
    pub writer: u64,
    pub reader_features: BTreeSet<Vec<u8>>,
    pub writer_features: BTreeSet<Vec<u8>>,
}

impl Protocol {
    /// The protocol where no line gives one: (1, 1), no features.
    pub fn unsaid() -> Protocol {
        Protocol { reader: 1, writer: 1, reader_features: BTreeSet::new(), writer_features: BTreeSet::new() }
    }
}

#[derive(Clone, Debug, PartialEq, Eq)]
pub struct MetaData {
    pub id: Vec<u8>,
    pub columns: Vec<Vec<u8>>,
}

#[derive(Clone, Debug, PartialEq, Eq)]
pub enum Action {
    Protocol(Protocol),
    MetaData(MetaData),
    Add(Add),
    Remove(Vec<u8>),
    MergeSkip(Vec<u8>, Skip),
    Other,
}

/// Reads one line that is not empty; `None` if it is malformed. No line holds 0x0A: it is a
/// blank in other JSON texts, but not here.
pub fn read(line: &[u8]) -> Option<Action> {
    if line.contains(&0x0A) {
        return None;
    }
    let value = json::read(line)?;
    let (key, value) = match value.as_object()? {
        [only] => only,
        _ => return None,
    };
    match &key.decoded[..] {
        b"protocol" => protocol(value.as_object()?).map(Action::Protocol),
        b"metaData" => meta_data(value.as_object()?).map(Action::MetaData),
        b"add" => add(value.as_object()?).map(Action::Add),
        b"remove" => Some(Action::Remove(path(value.as_object()?)?.decoded.clone())),
        b"mergeskip" => merge_skip(value.as_object()?),
        _ => Some(Action::Other),
    }
}

fn path<'v>(members: &'v [Member]) -> Option<&'v Text> {
    let path = need(members, "path")?.as_text()?;
    (1..=LONGEST_PATH).contains(&path.decoded.len()).then_some(path)
}

fn add(members: &[Member]) -> Option<Add> {
    let path = path(members)?;
    if *need(members, "dataChange")? != Value::Boolean {
        return None;
    }
    let records = match missing_or_null(members, "numRecords")? {
        Some(number) => Some(number.as_whole_number()?),
        None => None,
    };
    Some(Add {
        path: path.decoded.clone(),
        raw_path: path.raw.clone(),
        size: need(members, "size")?.as_whole_number()?,
        modification_time: need(members, "modificationTime")?.as_whole_number()?,
        records,
        values: partition_values(need(members, "partitionValues")?.as_object()?)?,
    })
}

/// A skip count that is missing is 1; a retry time that is missing or null is 0, at once.
fn merge_skip(members: &[Member]) -> Option<Action> {
    let path = path(members)?.decoded.clone();
    let count = match find(members, "skipCount").ok()? {
        Some(count) => count.as_whole_number().filter(|&count| count <= HIGHEST_SKIP_COUNT)?,
        None => 1,
    };
    let retry_after = match missing_or_null(members, "retryAfter")? {
        Some(time) => time.as_whole_number()?,
        None => 0,
    };
    Some(Action::MergeSkip(path, Skip { count, retry_after }))
}

fn partition_values(members: &[Member]) -> Option<PartitionValues> {
    if !keys_differ(members) {
        return None;
    }
    let mut values = PartitionValues::new();
    for (column, value) in members {
        let value = if value.is_null() { None } else { Some(value.as_text()?.decoded.clone()) };
        values.insert(column.decoded.clone(), value);
    }
    Some(values)
}

fn protocol(members: &[Member]) -> Option<Protocol> {
    let number = |name| {
        let number = need(members, name)?.as_whole_number()?;
        (1..=HIGHEST_PROTOCOL).contains(&number).then_some(number)
    };
    let features = |name| match missing_or_null(members, name)? {
        Some(names) => Some(strings(names)?.into_iter().collect()),
        None => Some(BTreeSet::new()),
    };
    Some(Protocol {
        reader: number("minReaderVersion")?,
        writer: number("minWriterVersion")?,
        reader_features: features("readerFeatures")?,
        writer_features: features("writerFeatures")?,
    })
}

fn meta_data(members: &[Member]) -> Option<MetaData> {
    let id = need(members, "id")?.as_text()?.decoded.clone();
    if id.is_empty() {
        return None;
    }
    let columns = strings(need(members, "partitionColumns")?)?;
    let distinct: BTreeSet<&Vec<u8>> = columns.iter().collect();
    if columns.len() > MOST_COLUMNS || distinct.len() < columns.len() {
        return None;
    }
    Some(MetaData { id, columns })
}

fn strings(array: &Value) -> Option<Vec<Vec<u8>>> {
    array.as_array()?.iter().map(|item| Some(item.as_text()?.decoded.clone())).collect()
}

/// The raw path between its quotes as a part of the line; empty if the line is no well-formed add.
pub fn path_of(line: &[u8]) -> &[u8] {
    match read(line) {
        Some(Action::Add(add)) => &line[add.raw_path],
        _ => &[],
    }
}

/// The numRecords of a line.
#[derive(Clone, Copy, Debug, PartialEq, Eq)]
pub enum Records {
    Number(u64),
    /// A well-formed add whose numRecords is missing or null.
    Missing,
    /// The line is no well-formed add.
    None,
}

pub fn records_of(line: &[u8]) -> Records {
    match read(line) {
        Some(Action::Add(Add { records: Some(number), .. })) => Records::Number(number),
        Some(Action::Add(_)) => Records::Missing,
        _ => Records::None,
    }
}
