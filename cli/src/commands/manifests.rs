//! manifests: which manifests of a state manifest a query keeps, and where they lie.

use std::fs;
use std::io::{self, Read, Write};
use std::path::Path;

use crate::ending::{system, Ended, Ending, Fail};
use crate::folder::path_shown;
use crate::json::{self, object, quoted};
use crate::words::Words;
use crate::{query, refusals};

fn state(words: &Words) -> Result<(String, Vec<u8>), Fail> {
    let operand = words.operand("STATE")?;
    let (name, read) = if operand == "-" {
        let mut bytes = Vec::new();
        ("standard input".to_string(), io::stdin().lock().read_to_end(&mut bytes).map(|_| bytes))
    } else {
        (path_shown(Path::new(operand)), fs::read(operand))
    };
    match read {
        Ok(bytes) => Ok((name, bytes)),
        Err(error) if error.kind() == io::ErrorKind::NotFound => system(format!("there is no {name}")),
        Err(error) => system(format!("{name} cannot be read: {error}")),
    }
}

pub fn run(words: &Words, out: &mut dyn Write) -> Ended {
    let (query, as_json) = (query::of(words)?, words.flag("--json"));
    let directory = words.value("--state-dir")?.unwrap_or("");
    let (name, state) = state(words)?;
    let kept = match kerumpase::keep(&state, &query) {
        Ok(kept) => kept,
        Err(refusal) => return refusals::tell(refusal, b"", as_json, out),
    };
    let paths = match json::manifest_paths(&state) {
        Some(paths) => paths,
        None => {
            return system(format!(
                "{name}: its manifests' paths cannot be shown, though the library finds it well formed; please tell us"
            ))
        }
    };
    let all = paths.len();
    if as_json {
        writeln!(out, "{}", object(&[("manifests", all.to_string()), ("kept", kept.len().to_string())]))?;
    } else {
        writeln!(out, "manifests {all} kept {}", kept.len())?;
    }
    for number in kept {
        let path = &paths[number];
        let lies_in = quoted(kerumpase::directory(&path.decoded, directory.as_bytes()));
        if as_json {
            write!(out, "{{\"number\":{number},\"path\":\"")?;
            out.write_all(&path.raw)?;
            writeln!(out, "\",\"directory\":{lies_in}}}")?;
        } else {
            write!(out, "{number} \"")?;
            out.write_all(&path.raw)?;
            writeln!(out, "\" {lies_in}")?;
        }
    }
    Ok(Ending::Answered)
}
