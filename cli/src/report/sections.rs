//! The sections of the page.

use kerumpase::bundle;

use super::html::{code, folded, prose, table, text, time};
use super::picture::picture;
use super::through::{checkpoints, cleaning, gaps, versions};
use super::waiting::waiting;
use super::Facts;
use crate::log::ALL as ALL_FILES;
use crate::refusals::{explained, Told};
use crate::text::{counted, grouped, yes_or_no};

pub struct Section {
    pub id: &'static str,
    pub title: &'static str,
    pub made: fn(&Facts) -> String,
}

pub const ALL: [Section; 10] = [
    Section { id: "summary", title: "Summary", made: summary },
    Section { id: "wrong", title: "What is wrong", made: wrong },
    Section { id: "picture", title: "Files and bytes over the versions", made: picture_of },
    Section { id: "versions", title: "Versions", made: versions },
    Section { id: "gaps", title: "Gaps", made: gaps },
    Section { id: "checkpoints", title: "Checkpoints and marker", made: checkpoints },
    Section { id: "cleaning", title: "Cleaning", made: cleaning },
    Section { id: "waiting", title: "Files waiting for a second merge", made: waiting },
    Section { id: "files", title: "Files of the latest version", made: files },
    Section { id: "meaning", title: "What the words mean", made: meaning },
];

pub fn verdict(facts: &Facts) -> String {
    let (class, words) = match (&facts.survey.latest, facts.faults.len()) {
        (Ok(latest), 0) => (
            "good",
            format!(
                "The table can be read. Its latest version is {}, and nothing is wrong with its log.",
                latest.version
            ),
        ),
        (Ok(latest), faults) => {
            let said = counted(faults, "fault was found", "faults were found");
            (
                "note",
                format!(
                    "The table can be read at version {}, but {said} in its log. See “What is wrong”.",
                    latest.version
                ),
            )
        }
        (Err(refusal), _) => {
            let told = Told::of(*refusal, &facts.table.bundle);
            ("bad", format!("The latest version cannot be read: {}.", text(&told.words())))
        }
    };
    format!("<p class=\"verdict {class}\">{words}</p>\n")
}

fn fact(name: &str, value: String) -> String {
    format!("<div><dt>{name}</dt><dd>{value}</dd></div>\n")
}

fn summary(facts: &Facts) -> String {
    let survey = &facts.survey;
    let mut said = String::from("<dl class=\"facts\">\n");
    if let Ok(latest) = &survey.latest {
        said += &fact("Latest version", latest.version.to_string());
        said += &fact("Live files", grouped(latest.files));
        said += &fact("Bytes", grouped(latest.bytes));
        let records = match latest.without_records {
            0 => grouped(latest.records),
            all if all == latest.files => "not stated".to_string(),
            _ => format!("{} or more", grouped(latest.records)),
        };
        said += &fact("Records", records);
        said += &fact("Protocol", format!("reader {}, writer {}", latest.reader, latest.writer));
        said += &fact("May be written", yes_or_no(latest.writable).to_string());
    }
    let read = survey.versions.iter().filter(|seen| seen.answer.is_ok()).count();
    said += &fact("Versions that can be read", format!("{read} of {}", survey.versions.len()));
    let log: Vec<_> = bundle::files(&facts.table.bundle).collect();
    if survey.versions.is_empty() {
        return said + "</dl>\n";
    }
    said += &fact("Log", counted(log.len(), "file", "files"));
    said += &fact("Bytes of the log", grouped(log.iter().map(|file| file.body.len()).sum::<usize>()));
    said + "</dl>\n"
}

fn wrong(facts: &Facts) -> String {
    if facts.faults.is_empty() {
        let compared = if facts.survey.marked().is_some() {
            ", and the cleaner’s comparison of the checkpoint was made"
        } else {
            ""
        };
        let not_kept = match facts.survey.not_kept().count() {
            0 => String::new(),
            count => {
                format!(" {} kept any more, which is no fault.", counted(count, "version is not", "versions are not"))
            }
        };
        return format!("<p>Nothing. Every version of the log was asked for{compared}.{not_kept}</p>\n");
    }
    let items: String = facts
        .faults
        .iter()
        .map(|fault| {
            let mut item = format!("<li><strong>{}</strong>", text(&capital(&fault.what)));
            if let Some(file) = &fault.file {
                item += &format!("<p>File {}", code(file));
                item += &if fault.line > 0 { format!(", line {}</p>", fault.line) } else { "</p>".to_string() };
            }
            if let Some(excerpt) = &fault.excerpt {
                item += &format!("<p>{}</p>", code(excerpt));
            }
            if let Some(number) = fault.number {
                item += &format!("<p>{}</p>", prose(explained(number).means));
            }
            item + &format!("<p><strong>What to do:</strong> {}</p></li>\n", prose(&fault.todo))
        })
        .collect();
    format!("<ol class=\"faults\">\n{items}</ol>\n")
}

fn capital(words: &str) -> String {
    let mut rest = words.chars();
    rest.next().map_or(String::new(), |first| first.to_uppercase().chain(rest).collect())
}

fn picture_of(facts: &Facts) -> String {
    if facts.survey.versions.is_empty() {
        return "<p>The log names no version.</p>\n".to_string();
    }
    let key = |shape: &str, words: &str| {
        format!("<li><svg viewBox=\"0 0 12 12\" aria-hidden=\"true\">{shape}</svg>{words}</li>")
    };
    let keys = [
        key("<rect class=\"unread\" width=\"12\" height=\"12\"/>", "version that cannot be read"),
        key("<rect class=\"not-kept\" width=\"12\" height=\"12\"/>", "version that is not kept any more"),
        key("<line class=\"gap\" x1=\"6\" x2=\"6\" y2=\"12\"/>", "gap: a version file is missing"),
        key("<path class=\"checkpoint marked\" d=\"M6 2l-5 8h10z\"/>", "checkpoint that the marker names"),
        key("<path class=\"checkpoint\" d=\"M6 2l-5 8h10z\"/>", "other checkpoint"),
    ];
    let picture = picture(&facts.survey);
    let caption = "One column for each version of which the log has a file, from the oldest to the newest.";
    let keys = keys.concat();
    format!("<figure>\n<div class=\"wide\">{picture}</div><figcaption>{caption}\n<ul class=\"key\">{keys}</ul></figcaption>\n</figure>\n")
}

fn files(facts: &Facts) -> String {
    let listing = match kerumpase::read_latest(&facts.table.bundle, ALL_FILES) {
        Ok(listing) => listing,
        Err(_) => return "<p>The latest version cannot be read.</p>\n".to_string(),
    };
    let rows: Vec<Vec<String>> = listing
        .files()
        .map(|file| {
            let records = file.num_records.map_or("–".to_string(), grouped);
            vec![code(&String::from_utf8_lossy(file.path)), grouped(file.size), time(file.modification_time), records]
        })
        .collect();
    if rows.is_empty() {
        return "<p>The table is empty.</p>\n".to_string();
    }
    let columns = [("Path, as the log writes it", false), ("Bytes", true), ("Changed (UTC)", false), ("Records", true)];
    folded(
        rows.len(),
        &format!("Show all {} files", rows.len()),
        &table("The files that make up the table", &columns, &rows),
    )
}

fn meaning(_: &Facts) -> String {
    let words = [
        ("Version", "One state of the table. Each change writes a version file, with a number of twenty decimal digits as its name."),
        ("Live file", "A file that belongs to the table at a version. The log adds files and removes them again."),
        ("Checkpoint", "The live files and the metaData of one version in one file: older version files are not needed. Without metaData it is not used."),
        ("Marker", "The small file _last_checkpoint, which names a checkpoint. The latest version is looked for from there."),
        ("Gap", "A version file that is missing between two that are there."),
        ("Not kept", "A version that can no longer be read, because its files were cleaned or lost. Later versions are not touched by that."),
        ("Second merge", "Merging skips a damaged or locked file. It stays in the table, and the log notes how often it was skipped, and until when."),
        ("Cleaning", "Removing old version files below the checkpoint. Versions from the checkpoint on answer as before."),
    ];
    let items: String =
        words.iter().map(|(word, means)| format!("<dt><strong>{word}</strong></dt><dd>{means}</dd>\n")).collect();
    format!("<dl>\n{items}</dl>\n")
}
