//! explain: what a refusal means, and what to do.

use std::io::Write;

use crate::ending::{usage, Ended, Ending};
use crate::json::{object, quoted};
use crate::numbers::decimal;
use crate::refusals::{self, Explained};
use crate::words::Words;

pub fn run(words: &Words, out: &mut dyn Write) -> Ended {
    let json = words.flag("--json");
    let rows: Vec<Explained> = match &words.operands[..] {
        [] => refusals::all().collect(),
        _ => {
            let word = words.operand("K")?.to_string_lossy();
            let number = decimal(&word, "the number of a refusal")?;
            refusals::all().filter(|row| u64::from(row.number) == number).collect()
        }
    };
    if rows.is_empty() {
        return usage(format!(
            "there is no refusal with this number; they go from 0 to {}",
            refusals::all().count() - 1
        ));
    }
    for (place, row) in rows.iter().enumerate() {
        let Explained { number, words, means, todo } = row;
        if json {
            let text = |text: &str| quoted(text.as_bytes());
            writeln!(
                out,
                "{}",
                object(&[
                    ("number", number.to_string()),
                    ("why", text(words)),
                    ("means", text(means)),
                    ("todo", text(todo))
                ])
            )?;
        } else {
            let between = if place > 0 { "\n" } else { "" };
            writeln!(out, "{between}refusal {number}: {words}\n{means}\n{todo}")?;
        }
    }
    Ok(Ending::Answered)
}
