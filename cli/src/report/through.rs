//! The sections that go through the log: versions, gaps, checkpoints, what the cleaner may name.

use kerumpase::bundle::{self, Name};

use super::html::{code, folded, prose, table, tag, text, time};
use super::Facts;
use crate::clean::{may_go_from, why_nothing, Ask};
use crate::clock::time_shown;
use crate::log::{NoStart, VersionSeen};
use crate::numbers::span_shown;
use crate::refusals::Told;
use crate::text::{counted, excerpt, grouped};

pub fn versions(facts: &Facts) -> String {
    let survey = &facts.survey;
    let row = |seen: &VersionSeen| {
        let (answer, files, bytes) = match &seen.answer {
            Ok(summary) => (tag("good", "read"), grouped(summary.files), grouped(summary.bytes)),
            Err(refusal) => {
                let told = Told::of(*refusal, &facts.table.bundle);
                let class = if survey.is_not_kept(seen) { "note" } else { "bad" };
                let why = format!("{}{}", told.explained.words, told.place());
                (
                    format!("{} {}", tag(class, &format!("refused {}", refusal.number())), text(&why)),
                    "–".into(),
                    "–".into(),
                )
            }
        };
        let latest = survey.latest.map_or(false, |latest| latest.version == seen.version);
        let answer = if latest { format!("{answer} {}", tag("good", "latest")) } else { answer };
        let file = seen.file.and_then(|entry| bundle::file(&facts.table.bundle, entry));
        let (size, changed) =
            file.map_or(("–".into(), "–".into()), |file| (grouped(file.body.len()), time(file.time)));
        vec![seen.version.to_string(), answer, files, bytes, size, changed]
    };
    let rows: Vec<Vec<String>> = survey.versions.iter().map(row).collect();
    let columns = [
        ("Version", true),
        ("Answer", false),
        ("Files", true),
        ("Bytes", true),
        ("Its file’s bytes", true),
        ("Its file changed (UTC)", false),
    ];
    folded(
        rows.len(),
        &format!("Show all {} versions", rows.len()),
        &table("Each version of which the log has a file", &columns, &rows),
    )
}

pub fn gaps(facts: &Facts) -> String {
    let gaps = facts.survey.gaps();
    if gaps.is_empty() {
        return "<p>None: from version 0 on, every version file is there.</p>\n".to_string();
    }
    let latest = facts.survey.latest.map_or(0, |latest| latest.version);
    let items: String = gaps
        .iter()
        .map(|&(first, last)| {
            let which = if first == last { format!("Version file {first} is missing") } else { format!("Version files {first} to {last} are missing") };
            let why = match last < latest {
                true => "Nothing from the latest checkpoint up needs them: they were cleaned, or lost without harm to later versions.",
                false => "Readers stop before this gap: what was written after it is not shown.",
            };
            format!("<li><strong>{which}.</strong> {why}</li>\n")
        })
        .collect();
    format!("<ul>\n{items}</ul>\n")
}

pub fn checkpoints(facts: &Facts) -> String {
    let survey = &facts.survey;
    let marker = match (survey.marker.and_then(|entry| bundle::file(&facts.table.bundle, entry)), survey.marked()) {
        (None, _) => "<p>There is no marker: reading starts at version 0.</p>\n".to_string(),
        (Some(file), Some(version)) => {
            format!("<p>The marker names checkpoint {version}: {}</p>\n", code(&excerpt(file.body, 200)))
        }
        (Some(file), None) => format!(
            "<p>The marker names no checkpoint that can be used, so reading starts at version 0: {}</p>\n",
            code(&excerpt(file.body, 200))
        ),
    };
    if survey.checkpoints.is_empty() {
        return format!("{marker}<p>There is no checkpoint.</p>\n");
    }
    let rows: Vec<Vec<String>> = survey
        .checkpoints
        .iter()
        .map(|checkpoint| {
            let file = bundle::file(&facts.table.bundle, checkpoint.entry);
            let usable = match checkpoint.fault {
                None => tag("good", "can be read"),
                Some(NoStart::Malformed(0)) => tag("bad", "holds no action"),
                Some(NoStart::Malformed(line)) => tag("bad", &format!("malformed at line {line}")),
                Some(NoStart::WithoutMetaData) => tag("bad", "has no metaData"),
            };
            let marked = if checkpoint.marked { tag("good", "named") } else { "–".to_string() };
            let (size, changed) =
                file.map_or(("–".into(), "–".into()), |file| (grouped(file.body.len()), time(file.time)));
            vec![checkpoint.version.to_string(), usable, marked, size, changed]
        })
        .collect();
    let columns =
        [("Checkpoint", true), ("State", false), ("By the marker", false), ("Bytes", true), ("Changed (UTC)", false)];
    marker + &table("The checkpoints of the log", &columns, &rows)
}

pub fn cleaning(facts: &Facts) -> String {
    let Ask { now, retention } = facts.ask;
    let asked = format!("on {} for files older than {}", time_shown(now), span_shown(retention));
    let bytes = &facts.table.bundle;
    let (named, some_day) = match (kerumpase::clean(bytes, now, retention), &facts.survey.cleanable) {
        (Ok(named), Ok(some_day)) => (named, some_day),
        (Err(refusal), _) | (_, &Err(refusal)) => {
            let told = Told::of(refusal, bytes);
            return format!(
                "<p>The cleaner refuses, asked {asked}: <strong>{}</strong>. {} {}</p>\n",
                text(&told.words()),
                prose(told.explained.means),
                prose(told.explained.todo)
            );
        }
    };
    if named.is_empty() {
        let why = why_nothing(bytes, facts.ask);
        if some_day.is_empty() {
            return format!("<p>Nothing may go, asked {asked}: {}.</p>\n", text(&why));
        }
    }
    let sum: usize = named.iter().filter_map(|&entry| bundle::file(bytes, entry)).map(|file| file.body.len()).sum();
    let said = format!(
        "<p>Asked {asked}, the cleaner names <strong>{}</strong> with {} bytes. All that it may ever name below this checkpoint:</p>\n",
        counted(named.len(), "file", "files"),
        grouped(sum)
    );
    let rows: Vec<Vec<String>> = some_day
        .iter()
        .filter_map(|&entry| {
            let file = bundle::file(bytes, entry)?;
            let version = if let Name::Version(version) = Name::of(file.name) { version } else { return None };
            let from = may_go_from(file.time, retention).map_or("never".to_string(), time);
            let now = if named.contains(&entry) { tag("note", "may go now") } else { tag("good", "stays for now") };
            Some(vec![
                version.to_string(),
                code(&String::from_utf8_lossy(file.name)),
                grouped(file.body.len()),
                time(file.time),
                from,
                now,
            ])
        })
        .collect();
    let columns = [
        ("Version", true),
        ("File", false),
        ("Bytes", true),
        ("Changed (UTC)", false),
        ("May go from (UTC)", false),
        ("Now", false),
    ];
    said + &folded(
        rows.len(),
        &format!("Show all {} files", rows.len()),
        &table("What the cleaner may name, and when", &columns, &rows),
    )
}
