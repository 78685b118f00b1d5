//! report: one page in HTML for the help desk. It needs nothing beside itself: no script, nothing fetched.

mod html;
mod picture;
mod sections;
mod through;
mod waiting;

use std::io::Write;

use crate::clean::Ask;
use crate::clock::time_shown;
use crate::ending::{Ended, Ending};
use crate::faults::{faults_of, Fault};
use crate::log::Survey;
use crate::progress::Progress;
use crate::table::Table;
use crate::words::Words;

/// How old a file must be for the cleaner where nothing else is asked for: 30 days.
const RETENTION: u64 = 2_592_000_000;

/// All that the page is made of.
pub struct Facts<'a> {
    pub table: &'a Table,
    pub survey: Survey,
    pub faults: Vec<Fault>,
    pub ask: Ask,
}

pub fn run(words: &Words, out: &mut dyn Write) -> Ended {
    let ask = Ask::of(words, Some(RETENTION))?;
    let table = Table::of(words)?;
    let mut progress = Progress::new(words.flag("--progress"));
    let survey = Survey::of(&table.bundle, |done, all| progress.step(done, all, "versions read"));
    progress.end();
    let faults = faults_of(&survey, &table.bundle);
    let facts = Facts { table: &table, survey, faults, ask };
    out.write_all(page(&facts).as_bytes())?;
    Ok(if facts.survey.latest.is_ok() { Ending::Answered } else { Ending::Refused })
}

fn page(facts: &Facts) -> String {
    let name = html::text(&facts.table.name);
    let sections: Vec<_> =
        sections::ALL.iter().map(|section| (section.id, section.title, (section.made)(facts))).collect();
    let links: String =
        sections.iter().map(|(id, title, _)| format!("<li><a href=\"#{id}\">{title}</a></li>")).collect();
    let body: String = sections
        .iter()
        .map(|(id, title, made)| {
            format!("<section aria-labelledby=\"{id}\">\n<h2 id=\"{id}\">{title}</h2>\n{made}</section>\n")
        })
        .collect();
    format!(
        "<!DOCTYPE html>\n<html lang=\"en\">\n<head>\n<meta charset=\"utf-8\">\n\
         <meta http-equiv=\"Content-Security-Policy\" content=\"default-src 'none'; style-src 'unsafe-inline'\">\n\
         <meta name=\"viewport\" content=\"width=device-width, initial-scale=1\">\n<title>Log report: {name}</title>\n<style>\n{}</style>\n</head>\n<body>\n\
         <header>\n<h1>Log report: <bdi>{name}</bdi></h1>\n<p>Made for {} (UTC) by kerumpase {}. What can be read, and what may go, the proved reader says.</p>\n{}\
         <nav aria-label=\"Sections\"><ul>{links}</ul></nav>\n</header>\n<main>\n{body}</main>\n\
         <footer><p>This page needs no network and runs no script. What the library says of its proof:</p>\n<pre>{}</pre></footer>\n</body>\n</html>\n",
        include_str!("style.css"),
        time_shown(facts.ask.now),
        env!("CARGO_PKG_VERSION"),
        sections::verdict(facts),
        html::text_lines(include_str!(concat!(env!("OUT_DIR"), "/PROVED"))),
    )
}
