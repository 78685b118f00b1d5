//! The section of the files that merging skipped: how often, and from when on they may be tried again.

use super::html::{code, folded, table, tag, time};
use super::Facts;
use crate::clock::time_shown;
use crate::log::ALL;
use crate::text::{counted, grouped};

pub fn waiting(facts: &Facts) -> String {
    let bytes = &facts.table.bundle;
    let (listing, due) = match (kerumpase::read_latest(bytes, ALL), kerumpase::read_due(bytes, facts.ask.now)) {
        (Ok(listing), Ok(due)) => (listing, due),
        _ => return "<p>The latest version cannot be read.</p>\n".to_string(),
    };
    let rows: Vec<Vec<String>> = listing
        .rows
        .iter()
        .zip(listing.files())
        .filter(|(_, file)| file.skip_count > 0)
        .map(|(row, file)| {
            let from = if file.retry_after == 0 { "at once".to_string() } else { time(file.retry_after) };
            let now = if due.rows.contains(row) { tag("note", "due") } else { tag("good", "waits") };
            let path = code(&String::from_utf8_lossy(file.path));
            vec![path, grouped(file.size), grouped(file.skip_count), from, now]
        })
        .collect();
    if rows.is_empty() {
        return "<p>None: merging skipped no file of the latest version.</p>\n".to_string();
    }
    let said = format!(
        "<p>Merging skipped {}; on {} <strong>{} due</strong>, to be tried again.</p>\n",
        counted(rows.len(), "file that is still in the table", "files that are still in the table"),
        time_shown(facts.ask.now),
        counted(due.rows.len(), "is", "are"),
    );
    let columns = [
        ("Path, as the log writes it", false),
        ("Bytes", true),
        ("Skipped", true),
        ("May be tried from (UTC)", false),
        ("Now", false),
    ];
    said + &folded(
        rows.len(),
        &format!("Show all {} files", rows.len()),
        &table("The files that merging skipped", &columns, &rows),
    )
}
