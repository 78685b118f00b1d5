//! files: the files of a table at a version, as the paper's program prints them.

use std::io::Write;

use kerumpase::{Listing, Refusal};

use crate::ending::{Ended, Ending, Fail};
use crate::json::{object, or_null};
use crate::numbers::decimal;
use crate::table::Table;
use crate::text::yes_or_no;
use crate::words::Words;
use crate::{query, refusals};

/// The listing at the version that --at asks for, or at the latest.
pub fn read<'a>(bundle: &'a [u8], query: &[u8], at: Option<u64>) -> Result<Listing<'a>, Refusal> {
    match at {
        Some(version) => kerumpase::read_at(bundle, query, version),
        None => kerumpase::read_latest(bundle, query),
    }
}

pub fn at(words: &Words) -> Result<Option<u64>, Fail> {
    words.value("--at")?.map(|version| decimal(version, "the version of --at")).transpose()
}

pub fn run(words: &Words, out: &mut dyn Write) -> Ended {
    let (query, at, json) = (query::of(words)?, at(words)?, words.flag("--json"));
    let table = Table::of(words)?;
    match read(&table.bundle, &query, at) {
        Ok(listing) if json => print_json(&listing, out),
        Ok(listing) => print(&listing, out),
        Err(refusal) => refusals::tell(refusal, &table.bundle, json, out),
    }
}

fn print(listing: &Listing, out: &mut dyn Write) -> Ended {
    let Listing { version, reader, writer, writable, rows, .. } = listing;
    writeln!(
        out,
        "version {version} files {} reader {reader} writer {writer} writable {}",
        rows.len(),
        yes_or_no(*writable)
    )?;
    for file in listing.files() {
        out.write_all(b"\"")?;
        out.write_all(file.path)?;
        write!(out, "\" {} {} ", file.size, file.modification_time)?;
        match file.num_records {
            Some(records) => writeln!(out, "{records}")?,
            None => writeln!(out, "-")?,
        }
    }
    Ok(Ending::Answered)
}

/// The raw path is a JSON string already.
fn print_json(listing: &Listing, out: &mut dyn Write) -> Ended {
    let Listing { version, reader, writer, writable, rows, .. } = listing;
    let head = [
        ("version", version.to_string()),
        ("files", rows.len().to_string()),
        ("reader", reader.to_string()),
        ("writer", writer.to_string()),
        ("writable", writable.to_string()),
    ];
    writeln!(out, "{}", object(&head))?;
    for file in listing.files() {
        out.write_all(b"{\"path\":\"")?;
        out.write_all(file.path)?;
        let records = or_null(file.num_records);
        writeln!(
            out,
            "\",\"size\":{},\"modificationTime\":{},\"numRecords\":{records}}}",
            file.size, file.modification_time
        )?;
    }
    Ok(Ending::Answered)
}
