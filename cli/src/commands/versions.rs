//! versions: each version of the log, whether it can be read, and its files in the log.

use std::io::Write;

use kerumpase::bundle;

use crate::clock::time_shown;
use crate::ending::{Ended, Ending};
use crate::json::{object, or_null, quoted};
use crate::log::{Survey, VersionSeen};
use crate::progress::Progress;
use crate::refusals;
use crate::table::Table;
use crate::words::Words;

pub fn run(words: &Words, out: &mut dyn Write) -> Ended {
    let json = words.flag("--json");
    let table = Table::of(words)?;
    let mut progress = Progress::new(words.flag("--progress"));
    let survey = Survey::of(&table.bundle, |done, all| progress.step(done, all, "versions read"));
    progress.end();
    if json {
        for seen in &survey.versions {
            writeln!(out, "{}", json_of(seen, &survey, &table.bundle))?;
        }
    } else if !survey.versions.is_empty() {
        print(&survey, &table.bundle, out)?;
    }
    match &survey.latest {
        Ok(_) => Ok(Ending::Answered),
        Err(refusal) => refusals::tell(*refusal, &table.bundle, json, out),
    }
}

fn print(survey: &Survey, bytes: &[u8], out: &mut dyn Write) -> std::io::Result<()> {
    let mut rows = vec![["version", "answer", "files", "bytes", "in the log"].map(str::to_string)];
    for seen in &survey.versions {
        let (answer, files, sum) = match &seen.answer {
            Ok(summary) => ("read".to_string(), summary.files.to_string(), summary.bytes.to_string()),
            Err(refusal) => (format!("refused {}", refusal.number()), "-".to_string(), "-".to_string()),
        };
        let file = |entry: usize| {
            let file = bundle::file(bytes, entry).expect("the survey has seen it");
            format!("{} {} {}", String::from_utf8_lossy(file.name), file.body.len(), time_shown(file.time))
        };
        let entries: Vec<String> = [seen.file, seen.checkpoint].into_iter().flatten().map(file).collect();
        let latest = survey.latest.as_ref().map_or(false, |latest| latest.version == seen.version);
        let answer = if latest { format!("{answer}, latest") } else { answer };
        rows.push([seen.version.to_string(), answer, files, sum, entries.join(", ")]);
    }
    let width = |column: usize| rows.iter().map(|row| row[column].len()).max().unwrap_or(0);
    let widths = [width(0), width(1), width(2), width(3)];
    for [version, answer, files, bytes, entries] in &rows {
        let [w, x, y, z] = widths;
        writeln!(out, "{version:>w$}  {answer:<x$}  {files:>y$}  {bytes:>z$}  {entries}")?;
    }
    Ok(())
}

fn json_of(seen: &VersionSeen, survey: &Survey, bytes: &[u8]) -> String {
    let entry = |entry: Option<usize>| {
        let file = entry.and_then(|entry| bundle::file(bytes, entry));
        or_null(file.map(|file| {
            object(&[
                ("name", quoted(file.name)),
                ("size", file.body.len().to_string()),
                ("modified", file.time.to_string()),
            ])
        }))
    };
    let answer = seen.answer.as_ref().ok();
    object(&[
        ("version", seen.version.to_string()),
        ("refused", seen.answer.map_or_else(|refusal| refusal.number(), |_| 0).to_string()),
        ("files", or_null(answer.map(|summary| summary.files))),
        ("bytes", or_null(answer.map(|summary| summary.bytes))),
        ("latest", survey.latest.map_or(false, |latest| latest.version == seen.version).to_string()),
        ("versionFile", entry(seen.file)),
        ("checkpoint", entry(seen.checkpoint)),
    ])
}
