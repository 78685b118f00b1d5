//! info: what a table is at a version, and what its log holds.

use std::io::Write;

use kerumpase::bundle::{self, Name};

use super::files::{at, read};
use crate::ending::{Ended, Ending};
use crate::json::{object, or_null, quoted};
use crate::log::{marked_in, Summary, ALL};
use crate::refusals;
use crate::table::Table;
use crate::text::{counted, yes_or_no};
use crate::words::Words;

pub fn run(words: &Words, out: &mut dyn Write) -> Ended {
    let (at, json) = (at(words)?, words.flag("--json"));
    let table = Table::of(words)?;
    let summary = match read(&table.bundle, ALL, at) {
        Ok(listing) => Summary::of(&listing),
        Err(refusal) => return refusals::tell(refusal, &table.bundle, json, out),
    };
    let names: Vec<Name> = bundle::files(&table.bundle).map(|file| Name::of(file.name)).collect();
    let versions: Vec<u64> =
        names.iter().filter_map(|name| if let Name::Version(version) = name { Some(*version) } else { None }).collect();
    let checkpoints: Vec<String> = names
        .iter()
        .filter_map(|name| if let Name::Checkpoint(version) = name { Some(version.to_string()) } else { None })
        .collect();
    let log_bytes: usize = bundle::files(&table.bundle).map(|file| file.body.len()).sum();
    let marked = marked_in(&table.bundle);
    let (least, most) = (versions.iter().min().copied(), versions.iter().max().copied());
    let Summary { version, files, bytes, records, without_records, reader, writer, writable } = summary;
    if json {
        let members = [
            ("table", quoted(table.name.as_bytes())),
            ("version", version.to_string()),
            ("files", files.to_string()),
            ("bytes", bytes.to_string()),
            ("records", records.to_string()),
            ("filesWithoutRecords", without_records.to_string()),
            ("reader", reader.to_string()),
            ("writer", writer.to_string()),
            ("writable", writable.to_string()),
            ("logFiles", names.len().to_string()),
            ("logBytes", log_bytes.to_string()),
            ("versionFiles", versions.len().to_string()),
            ("highestVersionFile", or_null(most)),
            ("checkpoints", format!("[{}]", checkpoints.join(","))),
            ("marker", or_null(marked)),
        ];
        writeln!(out, "{}", object(&members))?;
        return Ok(Ending::Answered);
    }
    let silent = match without_records {
        0 => String::new(),
        1 => ", and 1 file does not say".to_string(),
        more => format!(", and {more} files do not say"),
    };
    let has_marker = names.contains(&Name::Marker);
    let lines = [
        ("table", table.name.clone()),
        ("version", version.to_string()),
        ("files", files.to_string()),
        ("bytes", bytes.to_string()),
        ("records", format!("{records}{silent}")),
        ("reader", reader.to_string()),
        ("writer", writer.to_string()),
        ("writable", yes_or_no(writable).to_string()),
        ("log", format!("{}, {log_bytes} bytes", counted(names.len(), "file", "files"))),
        ("version files", format!("{}, {} to {}", versions.len(), least.unwrap_or(0), most.unwrap_or(0))),
        ("checkpoints", if checkpoints.is_empty() { "none".to_string() } else { checkpoints.join(" ") }),
        (
            "marker",
            match marked {
                Some(version) => format!("checkpoint {version}"),
                None if has_marker => "cannot be used".to_string(),
                None => "none".to_string(),
            },
        ),
    ];
    for (name, value) in lines {
        writeln!(out, "{name:<14}{value}")?;
    }
    Ok(Ending::Answered)
}
