//! The listing program: the latest version of a bundle under the query `[]`.

use crate::actions::{path_of, records_of, Records};
use crate::reading::{self, Ask, ROW, TABLE};
use crate::refusal::{Refusal, BUNDLE_MALFORMED};

pub const MOST_BYTES: usize = 65_536;

/// What the program prints for this bundle.
pub fn list(bundle: &[u8]) -> Vec<u8> {
    rows(bundle).unwrap_or_else(|refusal| {
        format!("refused {} entry {} line {}\n", refusal.number, refusal.entry, refusal.line).into_bytes()
    })
}

fn rows(bundle: &[u8]) -> Result<Vec<u8>, Refusal> {
    if bundle.len() > MOST_BYTES {
        return Err(BUNDLE_MALFORMED);
    }
    let mut room = vec![0; TABLE];
    let answer = reading::read(Ask::Latest, b"[]", bundle, &mut room)?;
    let mut printed = format!(
        "version {} files {} reader {} writer {} writable {}\n",
        answer.version,
        answer.rows,
        answer.reader,
        answer.writer,
        yes_or_no(answer.writable)
    )
    .into_bytes();
    for row in room.chunks_exact(ROW).take(answer.rows as usize) {
        let line = &bundle[row[0] as usize..(row[0] + row[1]) as usize];
        let records = match records_of(line) {
            Records::Number(number) => number.to_string(),
            Records::Missing | Records::None => "-".to_string(),
        };
        printed.push(b'"');
        printed.extend(path_of(line));
        printed.extend(format!("\" {} {} {}\n", row[2], row[3], records).bytes());
    }
    Ok(printed)
}

pub fn yes_or_no(yes: bool) -> &'static str {
    if yes {
        "yes"
    } else {
        "no"
    }
}
