//! contents: the files of a bundle.

use std::io::Write;

use kerumpase::bundle::{self, Name};
use kerumpase::{Reason, Refusal};

use crate::clock::time_shown;
use crate::ending::{Ended, Ending};
use crate::json::{object, quoted};
use crate::log::ALL;
use crate::refusals;
use crate::table::Table;
use crate::words::Words;

/// Whether bytes are a bundle, as the library judges it.
pub fn is_bundle(bytes: &[u8]) -> Result<(), Refusal> {
    match kerumpase::read_latest(bytes, ALL) {
        Err(refusal) if refusal.reason == Reason::BundleMalformed => Err(refusal),
        _ => Ok(()),
    }
}

fn kind(name: &[u8]) -> &'static str {
    match Name::of(name) {
        Name::Version(_) => "version",
        Name::Checkpoint(_) => "checkpoint",
        Name::Marker => "marker",
        Name::TooLarge => "too-large",
        Name::Other => "ignored",
    }
}

pub fn run(words: &Words, out: &mut dyn Write) -> Ended {
    let json = words.flag("--json");
    let table = Table::of(words)?;
    if let Err(refusal) = is_bundle(&table.bundle) {
        return refusals::tell(refusal, &table.bundle, json, out);
    }
    for (entry, file) in bundle::files(&table.bundle).enumerate() {
        if json {
            let members = [
                ("entry", entry.to_string()),
                ("name", quoted(file.name)),
                ("kind", quoted(kind(file.name).as_bytes())),
                ("size", file.body.len().to_string()),
                ("modified", file.time.to_string()),
            ];
            writeln!(out, "{}", object(&members))?;
        } else {
            let name = String::from_utf8_lossy(file.name);
            writeln!(out, "{entry} {name} {} {} {}", kind(file.name), file.body.len(), time_shown(file.time))?;
        }
    }
    Ok(Ending::Answered)
}
