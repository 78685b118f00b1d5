//! clean: which old version files may go, asked of the proved cleaner; with --apply `removal` takes them away.

use std::io::Write;

use kerumpase::bundle::{self, Name};
use kerumpase::Refusal;

use crate::clock::{now, time, time_shown};
use crate::ending::{usage, Ended, Ending, Fail};
use crate::json::{object, quoted};
use crate::log::marked_in;
use crate::numbers::{span, span_shown};
use crate::progress::Progress;
use crate::refusals;
use crate::removal::{may_apply, remove};
use crate::table::Table;
use crate::text::counted;
use crate::words::Words;

/// What is asked of the cleaner.
#[derive(Clone, Copy, Debug)]
pub struct Ask {
    pub now: u64,
    pub retention: u64,
}

impl Ask {
    /// From --now (else the clock) and --older-than (else the span given, if one is).
    pub fn of(words: &Words, otherwise: Option<u64>) -> Result<Ask, Fail> {
        let retention = match (words.value("--older-than")?, otherwise) {
            (Some(text), _) => span(text, "the span of --older-than")?,
            (None, Some(span)) => span,
            (None, None) => {
                return usage("--older-than is missing: how old a file must be to go, as in --older-than 30d")
            }
        };
        let now = words.value("--now")?.map_or_else(|| now("--now"), |text| time(text, "the time of --now"))?;
        Ok(Ask { now, retention })
    }
}

/// A file that may go.
#[derive(Clone, Debug, PartialEq, Eq)]
pub struct Named {
    pub entry: usize,
    pub name: String,
    pub version: u64,
    pub size: usize,
    pub modified: u64,
}

impl Named {
    /// All but its number, which moves as others come and go.
    pub fn facts(&self) -> (&str, usize, u64) {
        (&self.name, self.size, self.modified)
    }
}

pub fn named(bundle: &[u8], ask: Ask) -> Result<Vec<Named>, Refusal> {
    let entries = kerumpase::clean(bundle, ask.now, ask.retention)?;
    let named = entries.into_iter().filter_map(|entry| {
        let file = bundle::file(bundle, entry)?;
        let version = if let Name::Version(version) = Name::of(file.name) { version } else { return None };
        Some(Named {
            entry,
            name: String::from_utf8_lossy(file.name).to_string(),
            version,
            size: file.body.len(),
            modified: file.time,
        })
    });
    Ok(named.collect())
}

pub fn run(words: &Words, out: &mut dyn Write) -> Ended {
    let (ask, json, apply) = (Ask::of(words, None)?, words.flag("--json"), words.flag("--apply"));
    let table = Table::of(words)?;
    if apply {
        may_apply(&table)?;
    }
    let named = match named(&table.bundle, ask) {
        Ok(named) => named,
        Err(refusal) => return refusals::tell(refusal, &table.bundle, json, out),
    };
    for file in &named {
        writeln!(out, "{}", line_of(file, ask, apply, json))?;
    }
    // Before anything is removed it is written down what will be.
    out.flush()?;
    let bytes: usize = named.iter().map(|file| file.size).sum();
    let progress = &mut Progress::new(words.flag("--progress"));
    let outcome =
        if apply && !named.is_empty() { Some(remove(Table::of(words)?, &named, ask, progress)?) } else { None };
    if json {
        let removed = if outcome.is_some() { named.len() } else { 0 };
        let numbers = [("mayGo", named.len()), ("bytes", bytes), ("removed", removed)]
            .map(|(name, number)| (name, number.to_string()));
        let asked = [("now", ask.now), ("olderThan", ask.retention)].map(|(name, number)| (name, number.to_string()));
        writeln!(out, "{}", object(&[numbers.as_slice(), asked.as_slice()].concat()))?;
        return Ok(Ending::Answered);
    }
    let sum = format!("{}, {bytes} bytes", counted(named.len(), "file", "files"));
    match outcome {
        _ if named.is_empty() => writeln!(out, "nothing may go: {}", why_nothing(&table.bundle, ask))?,
        None => writeln!(out, "{sum}; nothing was removed: this was a dry run, and --apply removes them")?,
        Some(version) => writeln!(out, "{sum} removed; version {version} answers as before")?,
    }
    Ok(Ending::Answered)
}

fn line_of(file: &Named, ask: Ask, apply: bool, json: bool) -> String {
    let age = ask.now - file.modified;
    if json {
        return object(&[
            ("file", quoted(file.name.as_bytes())),
            ("version", file.version.to_string()),
            ("size", file.size.to_string()),
            ("modified", file.modified.to_string()),
            ("age", age.to_string()),
        ]);
    }
    let verb = if apply { "removing" } else { "would remove" };
    let (changed, age) = (time_shown(file.modified), span_shown(age));
    format!("{verb} {} version {} size {} changed {changed} age {age}", file.name, file.version, file.size)
}

/// Why the cleaner names nothing, as far as its answers to other questions tell.
pub fn why_nothing(bundle: &[u8], ask: Ask) -> String {
    let has_marker = bundle::files(bundle).any(|file| Name::of(file.name) == Name::Marker);
    let checkpoint = match marked_in(bundle) {
        None if has_marker => return "the marker names no checkpoint that can be used".to_string(),
        None => return "there is no marker, so no checkpoint makes older files needless".to_string(),
        Some(checkpoint) => checkpoint,
    };
    let some_day = named(bundle, Ask { now: u64::MAX, retention: 0 }).unwrap_or_default();
    match some_day.iter().map(|file| may_go_from(file.modified, ask.retention)).min() {
        Some(Some(first)) => {
            let old = span_shown(ask.retention);
            format!(
                "{} not older than {old} yet; the first may go from {}",
                counted(some_day.len(), "file is", "files are"),
                time_shown(first)
            )
        }
        Some(None) => "no file can get so old".to_string(),
        None if bundle::files(bundle).any(|file| {
            matches!(Name::of(file.name), Name::Version(1..)) && Name::of(file.name) < Name::Version(checkpoint)
        }) =>
        {
            format!("nothing but checkpoint {checkpoint} reaches its version, so it cannot be compared; the files below it may go after the next checkpoint")
        }
        None => format!("no version file stands between version 0 and checkpoint {checkpoint}"),
    }
}

/// The first millisecond at which a file is older than the retention.
pub fn may_go_from(modified: u64, retention: u64) -> Option<u64> {
    modified.checked_add(retention)?.checked_add(1)
}
