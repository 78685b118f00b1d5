//! The bundle's files by what their names say.

use std::borrow::Cow;
use std::collections::BTreeMap;

use serde::de::IgnoredAny;
use serde::Deserialize;

use super::Answer;

const ENTRY: usize = 112;
const NAME: usize = 96;
const DIGITS: usize = 20;

/// A file's bytes and where they begin in the bundle.
#[derive(Clone, Copy)]
pub struct Body<'a> {
    pub place: usize,
    bytes: &'a [u8],
}

impl<'a> Body<'a> {
    pub fn text(self) -> Answer<&'a str> {
        std::str::from_utf8(self.bytes).map_err(|error| error.to_string())
    }
}

#[derive(Default)]
pub struct Log<'a> {
    pub versions: BTreeMap<u64, Body<'a>>,
    pub checkpoints: BTreeMap<u64, Body<'a>>,
    marker: Option<Body<'a>>,
}

#[derive(Deserialize)]
struct Marker<'a> {
    version: u64,
    parts: Option<IgnoredAny>,
    #[serde(borrow)]
    format: Option<Cow<'a, str>>,
}

fn u32_at(bytes: &[u8], at: usize) -> usize {
    u32::from_le_bytes(bytes[at..at + 4].try_into().unwrap()) as usize
}

impl<'a> Log<'a> {
    pub fn open(bundle: &'a [u8]) -> Answer<Log<'a>> {
        let malformed = || "bundle malformed".to_string();
        if bundle.len() < 4 {
            return Err(malformed());
        }
        let count = u32_at(bundle, 0);
        let mut end = 4 + ENTRY * count;
        let contents = bundle.get(4..end).ok_or_else(malformed)?;
        let mut log = Log::default();
        let mut last: &[u8] = &[];
        for entry in contents.chunks_exact(ENTRY) {
            let (name, (start, length)) = (&entry[..NAME], (u32_at(entry, NAME), u32_at(entry, NAME + 4)));
            let bytes =
                bundle.get(start..start + length).filter(|_| start == end && last < name).ok_or_else(malformed)?;
            end += length;
            last = name;
            log.note(name, Body { place: start, bytes })?;
        }
        if end != bundle.len() {
            return Err(malformed());
        }
        Ok(log)
    }

    fn note(&mut self, name: &[u8], body: Body<'a>) -> Answer<()> {
        let size = name.iter().position(|b| *b == 0).unwrap_or(NAME);
        let (word, zeros) = name.split_at(size);
        if word.is_empty() || !word.iter().all(u8::is_ascii_graphic) || zeros.iter().any(|b| *b != 0) {
            return Err("bundle malformed".to_string());
        }
        if word == b"_last_checkpoint" {
            self.marker = Some(body);
        }
        let Some((digits, ending)) =
            word.split_at_checked(DIGITS).filter(|(digits, _)| digits.iter().all(u8::is_ascii_digit))
        else {
            return Ok(());
        };
        let files = match ending {
            b".json" => &mut self.versions,
            b".checkpoint.json" => &mut self.checkpoints,
            _ => return Ok(()),
        };
        let version = std::str::from_utf8(digits).unwrap().parse::<i64>().map_err(|_| "version too large")?;
        files.insert(version as u64, body);
        Ok(())
    }

    /// The checkpoint that the marker names, if the marker is well formed.
    pub fn marked(&self) -> Answer<Option<u64>> {
        let Some(body) = self.marker else { return Ok(None) };
        Ok(match serde_json::from_str::<Marker>(body.text()?) {
            Ok(Marker { version, parts: None, format }) if format.is_none() || format.as_deref() == Some("json") => {
                Some(version)
            }
            _ => None,
        })
    }
}
