//! The actions of a line as serde reads them.

use std::borrow::Cow;
use std::fmt;

use serde::de::{Deserializer, Error, IgnoredAny, MapAccess, Visitor};
use serde::Deserialize;

use super::Answer;

const MOST_PATH: usize = 512;
const MOST_SKIPS: u32 = 2_147_483_647;
const MOST_VERSION: u64 = 3;
const FEATURES: [&str; 6] =
    ["skippedFiles", "extendedMetadata", "footerOffsets", "schemaDeduplication", "checkpoint", "optimizeWrite"];
const READER_FEATURES: usize = 4;

pub enum Action<'a> {
    Add(Add<'a>),
    Remove(Remove<'a>),
    Mergeskip(Mergeskip<'a>),
    Protocol(Protocol<'a>),
    MetaData(MetaData<'a>),
    Other,
}

#[derive(Deserialize)]
#[serde(field_identifier, rename_all = "camelCase")]
enum Key {
    Add,
    Remove,
    Mergeskip,
    Protocol,
    MetaData,
    #[serde(other)]
    Other,
}

impl<'a> Action<'a> {
    pub fn read(line: &'a str) -> Answer<Action<'a>> {
        let action = serde_json::from_str(line).map_err(|error| error.to_string())?;
        match &action {
            Action::Add(Add { path, .. })
            | Action::Remove(Remove { path })
            | Action::Mergeskip(Mergeskip { path, .. })
                if path.is_empty() || path.len() > MOST_PATH =>
            {
                Err("path".to_string())
            }
            Action::Mergeskip(Mergeskip { skip_count, .. }) if *skip_count > MOST_SKIPS => Err("skipCount".to_string()),
            _ => Ok(action),
        }
    }
}

/// One member; under another key anything may stand.
impl<'de: 'a, 'a> Deserialize<'de> for Action<'a> {
    fn deserialize<D: Deserializer<'de>>(from: D) -> Result<Self, D::Error> {
        struct Reads;
        impl<'de> Visitor<'de> for Reads {
            type Value = Action<'de>;

            fn expecting(&self, out: &mut fmt::Formatter) -> fmt::Result {
                out.write_str("an action")
            }

            fn visit_map<A: MapAccess<'de>>(self, mut from: A) -> Result<Action<'de>, A::Error> {
                let action = match from.next_key()? {
                    Some(Key::Add) => Action::Add(from.next_value()?),
                    Some(Key::Remove) => Action::Remove(from.next_value()?),
                    Some(Key::Mergeskip) => Action::Mergeskip(from.next_value()?),
                    Some(Key::Protocol) => Action::Protocol(from.next_value()?),
                    Some(Key::MetaData) => Action::MetaData(from.next_value()?),
                    Some(Key::Other) => from.next_value::<IgnoredAny>().map(|_| Action::Other)?,
                    None => return Err(A::Error::custom("no member")),
                };
                match from.next_key::<IgnoredAny>()? {
                    None => Ok(action),
                    Some(_) => Err(A::Error::custom("a second member")),
                }
            }
        }
        from.deserialize_map(Reads)
    }
}

#[derive(Deserialize)]
#[serde(rename_all = "camelCase")]
pub struct Add<'a> {
    #[serde(borrow)]
    pub path: Cow<'a, str>,
    pub size: u64,
    pub modification_time: u64,
    #[allow(dead_code)]
    data_change: bool,
    #[serde(borrow)]
    pub partition_values: Pairs<'a>,
    #[allow(dead_code)]
    num_records: Option<u64>,
}

#[derive(Deserialize)]
pub struct Remove<'a> {
    #[serde(borrow)]
    pub path: Cow<'a, str>,
}

/// A missing skipCount is 1, and null is none; a missing retryAfter is as null.
#[derive(Deserialize)]
#[serde(rename_all = "camelCase")]
pub struct Mergeskip<'a> {
    #[serde(borrow)]
    pub path: Cow<'a, str>,
    #[serde(default = "once")]
    pub skip_count: u32,
    pub retry_after: Option<u64>,
}

fn once() -> u32 {
    1
}

#[derive(Deserialize)]
#[serde(rename_all = "camelCase")]
pub struct MetaData<'a> {
    #[allow(dead_code)]
    #[serde(borrow)]
    id: Cow<'a, str>,
    #[serde(borrow)]
    pub partition_columns: Vec<Cow<'a, str>>,
}

#[derive(Deserialize)]
#[serde(rename_all = "camelCase")]
pub struct Protocol<'a> {
    pub min_reader_version: u64,
    pub min_writer_version: u64,
    #[serde(borrow)]
    reader_features: Option<Vec<Cow<'a, str>>>,
    #[serde(borrow)]
    writer_features: Option<Vec<Cow<'a, str>>>,
}

impl Default for Protocol<'_> {
    fn default() -> Self {
        Protocol { min_reader_version: 1, min_writer_version: 1, reader_features: None, writer_features: None }
    }
}

fn known(features: &Option<Vec<Cow<str>>>, among: &[&str]) -> bool {
    features.iter().flatten().all(|feature| among.contains(&&**feature))
}

impl Protocol<'_> {
    pub fn readable(&self) -> Answer<()> {
        if self.min_reader_version <= MOST_VERSION && known(&self.reader_features, &FEATURES[..READER_FEATURES]) {
            return Ok(());
        }
        Err("not readable".to_string())
    }

    pub fn writable(&self) -> bool {
        self.min_writer_version <= MOST_VERSION && known(&self.writer_features, &FEATURES)
    }
}

/// Partition values: few, so a list of pairs is faster than a map.
pub struct Pairs<'a>(pub Vec<(Cow<'a, str>, Option<Cow<'a, str>>)>);

#[derive(Deserialize)]
#[serde(transparent)]
struct Text<'a>(#[serde(borrow)] Cow<'a, str>);

impl<'de: 'a, 'a> Deserialize<'de> for Pairs<'a> {
    fn deserialize<D: Deserializer<'de>>(from: D) -> Result<Self, D::Error> {
        struct Reads;
        impl<'de> Visitor<'de> for Reads {
            type Value = Pairs<'de>;

            fn expecting(&self, out: &mut fmt::Formatter) -> fmt::Result {
                out.write_str("partition values")
            }

            fn visit_map<A: MapAccess<'de>>(self, mut from: A) -> Result<Pairs<'de>, A::Error> {
                let mut pairs: Vec<(Cow<str>, Option<Cow<str>>)> = Vec::with_capacity(2);
                while let Some((Text(name), value)) = from.next_entry::<Text, Option<Text>>()? {
                    if pairs.iter().any(|(there, _)| *there == name) {
                        return Err(A::Error::custom("a partition column twice"));
                    }
                    pairs.push((name, value.map(|text| text.0)));
                }
                Ok(Pairs(pairs))
            }
        }
        from.deserialize_map(Reads)
    }
}
