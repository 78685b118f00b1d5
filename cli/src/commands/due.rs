//! due: the files of the latest version that are due for a second merge at a time.

use std::io::Write;

use kerumpase::Listing;

use crate::clock::{now, time, time_shown};
use crate::ending::{Ended, Ending, Fail};
use crate::json::object;
use crate::refusals;
use crate::table::Table;
use crate::words::Words;

/// The time that --at names, or the clock's.
fn at(words: &Words) -> Result<u64, Fail> {
    words.value("--at")?.map_or_else(|| now("--at"), |moment| time(moment, "the time of --at"))
}

pub fn run(words: &Words, out: &mut dyn Write) -> Ended {
    let (at, json) = (at(words)?, words.flag("--json"));
    let table = Table::of(words)?;
    match kerumpase::read_due(&table.bundle, at) {
        Ok(listing) if json => print_json(&listing, at, out),
        Ok(listing) => print(&listing, at, out),
        Err(refusal) => refusals::tell(refusal, &table.bundle, json, out),
    }
}

/// From when on a file may be tried again, as people read it: a retry time of 0 says at once.
fn since(retry_after: u64) -> String {
    match retry_after {
        0 => "at once".to_string(),
        moment => format!("since {}", time_shown(moment)),
    }
}

fn print(listing: &Listing, at: u64, out: &mut dyn Write) -> Ended {
    writeln!(out, "version {} due {} at {}", listing.version, listing.rows.len(), time_shown(at))?;
    for file in listing.files() {
        out.write_all(b"\"")?;
        out.write_all(file.path)?;
        writeln!(out, "\" {} skipped {} due {}", file.size, file.skip_count, since(file.retry_after))?;
    }
    Ok(Ending::Answered)
}

/// The raw path is a JSON string already.
fn print_json(listing: &Listing, at: u64, out: &mut dyn Write) -> Ended {
    let head =
        [("version", listing.version.to_string()), ("due", listing.rows.len().to_string()), ("at", at.to_string())];
    writeln!(out, "{}", object(&head))?;
    for file in listing.files() {
        out.write_all(b"{\"path\":\"")?;
        out.write_all(file.path)?;
        writeln!(
            out,
            "\",\"size\":{},\"modificationTime\":{},\"skipCount\":{},\"retryAfter\":{}}}",
            file.size, file.modification_time, file.skip_count, file.retry_after
        )?;
    }
    Ok(Ending::Answered)
}
