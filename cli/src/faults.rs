//! What is wrong with a log, each fault once: from what the library says of its versions, checkpoints, marker and of cleaning it.

use kerumpase::{bundle, Reason, Refusal};

use crate::json::{object, or_null, quoted};
use crate::log::{NoStart, Survey, VersionSeen};
use crate::refusals::{explained, Told};
use crate::text::excerpt;

/// A fault of a log.
#[derive(Clone, Debug, PartialEq, Eq)]
pub struct Fault {
    /// The refusal that shows it; none where reading goes on without what is faulty.
    pub number: Option<u32>,
    pub what: String,
    pub file: Option<String>,
    pub line: usize,
    pub excerpt: Option<String>,
    pub todo: String,
}

impl Fault {
    fn of_refusal(refusal: Refusal, bytes: &[u8], where_met: &str) -> Fault {
        let told = Told::of(refusal, bytes);
        Fault {
            number: Some(refusal.number()),
            what: format!("{where_met}: {}", told.words()),
            excerpt: told.excerpt,
            file: told.file,
            line: refusal.line,
            todo: told.explained.todo.to_string(),
        }
    }

    fn beside_reading(what: String, file: Option<String>, line: usize, todo: &str) -> Fault {
        Fault { number: None, what, file, line, excerpt: None, todo: todo.to_string() }
    }

    pub fn text(&self) -> String {
        match &self.excerpt {
            Some(excerpt) => format!("{}; {excerpt}", self.what),
            None => self.what.clone(),
        }
    }

    pub fn json(&self) -> String {
        object(&[
            ("refused", or_null(self.number)),
            ("what", quoted(self.what.as_bytes())),
            ("file", or_null(self.file.as_ref().map(|file| quoted(file.as_bytes())))),
            ("line", self.line.to_string()),
            ("excerpt", or_null(self.excerpt.as_ref().map(|excerpt| quoted(excerpt.as_bytes())))),
            ("todo", quoted(self.todo.as_bytes())),
        ])
    }
}

impl Survey {
    fn is_above_latest(&self, seen: &VersionSeen) -> bool {
        self.latest.map_or(false, |latest| seen.version > latest.version)
    }

    /// Whether a version is below the latest and no start reaches it: cleaned, or lost below a checkpoint; no fault.
    pub fn is_not_kept(&self, seen: &VersionSeen) -> bool {
        matches!(seen.answer, Err(Refusal { reason: Reason::NotKept, .. })) && !self.is_above_latest(seen)
    }

    pub fn not_kept(&self) -> impl Iterator<Item = &VersionSeen> {
        self.versions.iter().filter(move |seen| self.is_not_kept(seen))
    }
}

/// Versions 3 to 9, or version 3.
fn versions_named(versions: &[u64]) -> String {
    match versions {
        [] => String::new(),
        [one] => format!("version {one}"),
        [first, .., last] => format!("versions {first} to {last}"),
    }
}

pub fn faults_of(survey: &Survey, bytes: &[u8]) -> Vec<Fault> {
    let name_of = |entry| bundle::file(bytes, entry).map(|file| String::from_utf8_lossy(file.name).to_string());
    let mut faults = Vec::new();
    let mut known: Vec<Refusal> = Vec::new();
    let mut push = |refusal: Refusal, met: String, faults: &mut Vec<Fault>| {
        // The same refusal at the same place is the same fault, wherever it is met.
        if !known.contains(&refusal) {
            known.push(refusal);
            faults.push(Fault::of_refusal(refusal, bytes, &met));
        }
    };
    if let Err(refusal) = survey.latest {
        push(refusal, "the latest version".to_string(), &mut faults);
    }
    for seen in &survey.versions {
        if let Err(refusal) = seen.answer {
            if refusal.reason != Reason::NotKept {
                let all: Vec<u64> = survey
                    .versions
                    .iter()
                    .filter(|other| other.answer == Err(refusal))
                    .map(|other| other.version)
                    .collect();
                push(refusal, versions_named(&all), &mut faults);
            }
        }
    }
    let beyond: Vec<u64> =
        survey.versions.iter().filter(|seen| survey.is_above_latest(seen)).map(|seen| seen.version).collect();
    if let (Ok(latest), false) = (&survey.latest, beyond.is_empty()) {
        let what = format!(
            "{} beyond the latest version {}: a file on the way is missing",
            versions_named(&beyond),
            latest.version
        );
        faults.push(Fault::beside_reading(what, None, 0, explained(5).todo));
    }
    for checkpoint in &survey.checkpoints {
        match checkpoint.fault {
            Some(NoStart::Malformed(line)) => {
                let what = format!("checkpoint {} is malformed and not used", checkpoint.version);
                faults.push(malformed(what, bytes, checkpoint.entry, line));
            }
            Some(NoStart::WithoutMetaData) => {
                let what = format!("checkpoint {} has no metaData line and is not used", checkpoint.version);
                let todo = "Have the box write a new checkpoint, which brings the table's metaData. Until then remove no file of the log.";
                faults.push(Fault::beside_reading(what, name_of(checkpoint.entry), 0, todo));
            }
            None => (),
        }
    }
    if let (Some(entry), None) = (survey.marker, survey.marked()) {
        let body = bundle::file(bytes, entry).map_or(&b""[..], |file| file.body);
        let what = format!(
            "the marker names no checkpoint that can be used, so reading starts at version 0; it says: {}",
            excerpt(body, 60)
        );
        let todo = "Restore the checkpoint that it names from a backup, or have the box write a new checkpoint.";
        faults.push(Fault::beside_reading(what, name_of(entry), 0, todo));
    }
    if let Err(refusal) = survey.cleanable {
        // A table that may not be written is no fault, and what reading met is told already.
        if refusal.reason != Reason::NotWritable {
            push(refusal, "the cleaner".to_string(), &mut faults);
        }
    }
    for seen in &survey.versions {
        if let (Some(entry), Some(line)) = (seen.file, seen.malformed) {
            let met = known
                .iter()
                .any(|refusal| refusal.reason == Reason::Malformed && (refusal.entry, refusal.line) == (entry, line));
            if !met {
                let what =
                    format!("version file {} is malformed, which no version that can be read needs", seen.version);
                faults.push(malformed(what, bytes, entry, line));
            }
        }
    }
    faults
}

/// A malformed file that reading goes past.
fn malformed(what: String, bytes: &[u8], entry: usize, line: usize) -> Fault {
    let file = bundle::file(bytes, entry);
    let place = if line == 0 { "it holds no action".to_string() } else { format!("line {line}") };
    let name = file.map(|file| String::from_utf8_lossy(file.name).to_string());
    let mut fault = Fault::beside_reading(format!("{what}: {place}"), name, line, explained(6).todo);
    fault.excerpt = file
        .and_then(|file| bundle::line(file.body, line))
        .map(|line| format!("the line begins: {}", excerpt(line, 60)));
    fault
}

#[cfg(test)]
mod tests {
    use super::*;
    use kerumpase::bundle::File;

    const META: &str = r#"{"metaData":{"id":"t","partitionColumns":[]}}"#;
    const RENAMED: &str = r#"{"metaData":{"id":"t","partitionColumns":["class"]}}"#;
    const ADD: &str = r#"{"add":{"path":"a","size":3,"modificationTime":7,"dataChange":true,"partitionValues":{}}}"#;
    const OTHER: &str = r#"{"add":{"path":"a","size":4,"modificationTime":7,"dataChange":true,"partitionValues":{}}}"#;

    /// The faults of a log of version files 0 to 3, with a checkpoint at 2 that the marker names, after these files were put in or taken out.
    fn faults(changes: &[(&str, Option<&str>)]) -> Vec<String> {
        let name = |version: u64, ending: &str| format!("{version:020}{ending}");
        let checkpoint = format!("{META}\n{ADD}");
        let mut files = vec![
            (name(0, ".json"), META),
            (name(1, ".json"), ADD),
            (name(2, ".checkpoint.json"), &checkpoint),
            (name(2, ".json"), "{\"x\":1}"),
            (name(3, ".json"), "{\"x\":1}"),
            ("_last_checkpoint".to_string(), r#"{"version":2}"#),
        ];
        for (changed, body) in changes {
            files.retain(|(name, _)| name != changed);
            files.extend(body.map(|body| (changed.to_string(), body)));
        }
        let files: Vec<File> =
            files.iter().map(|(name, body)| File { name: name.as_bytes(), time: 5, body: body.as_bytes() }).collect();
        let bytes = bundle::write(&files).unwrap();
        faults_of(&Survey::of(&bytes, |_, _| ()), &bytes).iter().map(Fault::text).collect()
    }

    const ZERO: &str = "00000000000000000000.json";
    const ONE: &str = "00000000000000000001.json";
    const TWO: &str = "00000000000000000002.json";
    const THREE: &str = "00000000000000000003.json";
    const CHECKPOINT: &str = "00000000000000000002.checkpoint.json";
    const MARKER: &str = "_last_checkpoint";

    #[test]
    fn good_logs_have_none() {
        assert_eq!(faults(&[]), [""; 0]);
        // Cleaned, wholly or in part.
        assert_eq!(faults(&[(ONE, None)]), [""; 0]);
        assert_eq!(faults(&[(ONE, None), (TWO, None)]), [""; 0]);
        // No checkpoint and no marker; a table that may not be written.
        assert_eq!(faults(&[(CHECKPOINT, None), (MARKER, None)]), [""; 0]);
        let newer = "{\"protocol\":{\"minReaderVersion\":1,\"minWriterVersion\":7}}\n";
        let (zero, checkpoint) = (format!("{META}\n{newer}"), format!("{META}\n{newer}{ADD}"));
        assert_eq!(faults(&[(ZERO, Some(&zero)), (CHECKPOINT, Some(&checkpoint))]), [""; 0]);
        // Renamed columns, in a version file and in the checkpoint behind it.
        let checkpoint = format!("{RENAMED}\n{ADD}");
        assert_eq!(faults(&[(TWO, Some(RENAMED)), (CHECKPOINT, Some(&checkpoint))]), [""; 0]);
    }

    #[test]
    fn foreign_adds_are_told_where_they_are_read() {
        let keyed = ADD.replace("{}", r#"{"class":"7a"}"#);
        let told = |met: &str, file: &str| {
            let begins = r#"the line begins: {"add":{"path":"a","size":3,"modificationTime":7,"dataChange…"#;
            format!("{met}: refusal 21: foreign partition keys, in {file}, line 1; {begins}")
        };
        assert_eq!(faults(&[(THREE, Some(&keyed))]), [told("the latest version", THREE)]);
        // Version 1 is read for itself and by the cleaner, and told once; versions 2 and 3 do not need it.
        assert_eq!(faults(&[(ONE, Some(&keyed))]), [told("version 1", ONE)]);
        // A checkpoint is not held to the columns, but the history of this one has another file.
        let checkpoint = format!("{META}\n{keyed}");
        assert_eq!(
            faults(&[(CHECKPOINT, Some(&checkpoint))]),
            ["the cleaner: refusal 13: checkpoint disagrees (cleaner)"]
        );
    }

    fn of_line(met: &str, place: &str) -> String {
        format!("{met}: refusal 6: a line or file read is malformed, in {place}")
    }

    #[test]
    fn each_fault_is_told_once() {
        let other = format!("{META}\n{OTHER}");
        for (changes, expected) in [
            (&[(ZERO, None)][..], &["the latest version: refusal 4: no version file 0"][..]),
            (
                &[(THREE, Some("{}"))],
                &[&of_line("the latest version", "00000000000000000003.json, line 1; the line begins: {}")],
            ),
            (&[(THREE, Some(""))], &[&of_line("the latest version", "00000000000000000003.json, at its end")]),
            (&[(ONE, Some("x"))], &[&of_line("version 1", "00000000000000000001.json, line 1; the line begins: x")]),
            (&[(CHECKPOINT, Some(&other))], &["the cleaner: refusal 13: checkpoint disagrees (cleaner)"]),
            (&[(TWO, Some(RENAMED))], &["the cleaner: refusal 13: checkpoint disagrees (cleaner)"]),
            (
                &[(ONE, None), (TWO, Some("x"))],
                &["version file 2 is malformed, which no version that can be read needs: line 1; the line begins: x"],
            ),
            (
                &[(CHECKPOINT, Some("{}")), (MARKER, None)],
                &["checkpoint 2 is malformed and not used: line 1; the line begins: {}"],
            ),
            (&[(CHECKPOINT, Some(ADD)), (MARKER, None)], &["checkpoint 2 has no metaData line and is not used"]),
            (
                &[(CHECKPOINT, Some(ADD)), (ONE, None)],
                &[
                    "versions 2 to 3 beyond the latest version 0: a file on the way is missing",
                    "checkpoint 2 has no metaData line and is not used",
                    "the marker names no checkpoint that can be used, so reading starts at version 0; it says: {\"version\":2}",
                ],
            ),
            (
                &[(MARKER, Some("{}")), (TWO, None), (CHECKPOINT, None)],
                &[
                    "version 3 beyond the latest version 1: a file on the way is missing",
                    "the marker names no checkpoint that can be used, so reading starts at version 0; it says: {}",
                ],
            ),
            (
                &[("99999999999999999999.json", Some(""))],
                &["the latest version: refusal 3: version in a name too large"],
            ),
        ] {
            assert_eq!(faults(changes), expected, "{changes:?}");
        }
    }
}
