//! check: every version of every table is read, and the cleaner's comparison made; one line a table, and its faults.

use std::ffi::OsString;
use std::io::Write;
use std::sync::atomic::{AtomicUsize, Ordering};
use std::sync::mpsc;

use crate::ending::{usage, Ended, Ending, Fail};
use crate::faults::{faults_of, Fault};
use crate::folder::Times;
use crate::json::{object, or_null, quoted};
use crate::log::Survey;
use crate::numbers::decimal;
use crate::progress::Progress;
use crate::table::Table;
use crate::text::{counted, shown};
use crate::words::Words;

/// The most threads.
const MOST_JOBS: u64 = 256;

/// What is told of a table that could be looked at.
struct Checked {
    latest: Option<(u64, usize)>,
    versions: usize,
    read: usize,
    not_kept: usize,
    faults: Vec<Fault>,
}

fn check(operand: &OsString) -> Result<Checked, Fail> {
    let table = Table::read(operand, Times::default(), false)?;
    let survey = Survey::of(&table.bundle, |_, _| ());
    let read = survey.versions.iter().filter(|seen| seen.answer.is_ok()).count();
    let latest = survey.latest.ok().map(|latest| (latest.version, latest.files));
    let not_kept = survey.not_kept().count();
    Ok(Checked { latest, versions: survey.versions.len(), read, not_kept, faults: faults_of(&survey, &table.bundle) })
}

pub fn run(words: &Words, out: &mut dyn Write) -> Ended {
    let json = words.flag("--json");
    let jobs = words.value("--jobs")?.map_or(Ok(1), |jobs| decimal(jobs, "the number of --jobs"))?;
    if !(1..=MOST_JOBS).contains(&jobs) {
        return usage(format!("--jobs is 1 to {MOST_JOBS}"));
    }
    let tables = &words.operands;
    if tables.is_empty() {
        return usage("TABLE is missing");
    }
    if tables.iter().filter(|table| *table == "-").count() > 1 {
        return usage("standard input can be read only once");
    }
    let mut progress = Progress::new(words.flag("--progress"));
    let mut tally = [0; 3];
    in_order(tables, jobs as usize, |done, table, checked| {
        let name = shown(&table.to_string_lossy());
        let place = match &checked {
            Ok(checked) if checked.faults.is_empty() => 0,
            Ok(_) => 1,
            Err(_) => 2,
        };
        tally[place] += 1;
        progress.give_way();
        let line = if json { json_of(&name, &checked) } else { text_of(&name, &checked) };
        writeln!(out, "{line}")?;
        progress.step(done, tables.len(), "tables checked");
        Ok(())
    })?;
    progress.end();
    let [good, faulty, unread] = tally;
    if !json && tables.len() > 1 {
        writeln!(
            out,
            "{}: {good} good, {faulty} with faults, {unread} not read",
            counted(tables.len(), "table", "tables")
        )?;
    }
    match (faulty, unread) {
        (_, 1..) => Err(Fail::System(format!("{} could not be read", counted(unread, "table", "tables")))),
        (1.., _) => Ok(Ending::Refused),
        _ => Ok(Ending::Answered),
    }
}

/// Checks all tables on `jobs` threads, and tells each in the order of the tables.
fn in_order(
    tables: &[OsString],
    jobs: usize,
    mut tell: impl FnMut(usize, &OsString, Result<Checked, Fail>) -> Result<(), Fail>,
) -> Result<(), Fail> {
    let next = AtomicUsize::new(0);
    let (send, receive) = mpsc::channel();
    std::thread::scope(|scope| {
        for _ in 0..jobs.min(tables.len()) {
            let (send, next) = (send.clone(), &next);
            scope.spawn(move || loop {
                let number = next.fetch_add(1, Ordering::Relaxed);
                // Nobody listens any more where standard output is gone.
                if number >= tables.len() || send.send((number, check(&tables[number]))).is_err() {
                    break;
                }
            });
        }
        drop(send);
        let mut waiting: Vec<Option<Result<Checked, Fail>>> = tables.iter().map(|_| None).collect();
        let mut told = 0;
        for (number, checked) in &receive {
            waiting[number] = Some(checked);
            while let Some(checked) = waiting.get_mut(told).and_then(Option::take) {
                let said = tell(told + 1, &tables[told], checked);
                if said.is_err() {
                    drop(receive);
                    return said;
                }
                told += 1;
            }
        }
        Ok(())
    })
}

fn text_of(name: &str, checked: &Result<Checked, Fail>) -> String {
    match checked {
        Err(fail) => format!("not read {name}: {fail}"),
        Ok(Checked { latest, versions, read, not_kept, faults }) => {
            let latest = latest
                .map_or("no latest version".to_string(), |(version, files)| format!("version {version} files {files}"));
            let kept = if *not_kept == 0 { String::new() } else { format!(", {not_kept} not kept") };
            let verdict = if faults.is_empty() { "good" } else { "faults" };
            let head = format!("{verdict} {name}: {latest}, {read} of {versions} versions read{kept}");
            let faults = faults.iter().map(|fault| format!("\n  {}", fault.text()));
            faults.fold(head, |said, fault| said + &fault)
        }
    }
}

fn json_of(name: &str, checked: &Result<Checked, Fail>) -> String {
    match checked {
        Err(fail) => object(&[
            ("table", quoted(name.as_bytes())),
            ("good", "null".to_string()),
            ("error", quoted(fail.to_string().as_bytes())),
        ]),
        Ok(Checked { latest, versions, read, not_kept, faults }) => object(&[
            ("table", quoted(name.as_bytes())),
            ("good", faults.is_empty().to_string()),
            ("latest", or_null(latest.map(|(version, _)| version))),
            ("files", or_null(latest.map(|(_, files)| files))),
            ("versions", versions.to_string()),
            ("read", read.to_string()),
            ("notKept", not_kept.to_string()),
            ("faults", format!("[{}]", faults.iter().map(Fault::json).collect::<Vec<_>>().join(","))),
        ]),
    }
}
