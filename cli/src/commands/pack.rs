//! pack and unpack: between a table's folder and a bundle.

use std::fs;
use std::io::{ErrorKind, Write};
use std::path::{Component, Path, PathBuf};

use kerumpase::bundle;

use super::contents::is_bundle;
use crate::ending::{complain, system, usage, Ended, Ending, Fail};
use crate::folder::{path_shown, Times, LOG};
use crate::progress::is_terminal;
use crate::refusals;
use crate::table::Table;
use crate::text::{counted, shown};
use crate::words::Words;

pub fn pack(words: &Words, out: &mut dyn Write) -> Ended {
    if is_terminal(1) {
        return usage("standard output is a terminal; write the bundle to a file: kerumpase pack TABLE >BUNDLE");
    }
    let table =
        Table::read(words.operand("TABLE")?, Times::from_options(&words.values("--time")?)?, words.flag("--all"))?;
    if let Err(refusal) = is_bundle(&table.bundle) {
        return refusals::tell(refusal, &table.bundle, false, &mut std::io::stderr());
    }
    out.write_all(&table.bundle)?;
    Ok(Ending::Answered)
}

/// A name that is a path below the log's folder, and nothing else.
fn is_below(name: &Path) -> bool {
    name.components().all(|part| matches!(part, Component::Normal(_))) && name.components().count() > 0
}

/// A name of a file in a bundle, as text.
fn text(name: &[u8]) -> String {
    String::from_utf8_lossy(name).to_string()
}

fn cannot(path: &Path, error: std::io::Error) -> Fail {
    Fail::System(format!("{} cannot be written: {error}; nothing was unpacked", path_shown(path)))
}

/// A new folder beside `to`, in which all is written before it gets that name.
fn begun(to: &Path) -> Result<PathBuf, Fail> {
    let mut number = 0;
    loop {
        let folder = to.with_file_name(format!(".kerumpase-unpack-{}-{number}", std::process::id()));
        match fs::create_dir(&folder) {
            Ok(()) => return Ok(folder),
            Err(error) if error.kind() == ErrorKind::AlreadyExists => number += 1,
            Err(error) => return Err(cannot(to, error)),
        }
    }
}

/// Writes a bundle's files and their times into a folder that will be called `to`, and says how many they are.
fn write_all(bundle: &[u8], folder: &Path, to: &Path) -> Result<usize, Fail> {
    let put = |name: &Path, bytes: &[u8]| {
        let path = folder.join(name);
        fs::create_dir_all(path.parent().expect("it is below the folder"))
            .and_then(|()| fs::write(&path, bytes))
            .map_err(|error| cannot(&to.join(name), error))
    };
    let mut times = String::from("# The times of the log's files, as the bundle has them.\n");
    let mut count = 0;
    fs::create_dir(folder.join(LOG)).map_err(|error| cannot(&to.join(LOG), error))?;
    for file in bundle::files(bundle) {
        put(&Path::new(LOG).join(text(file.name)), file.body)?;
        times += &format!("{} {}\n", text(file.name), file.time);
        count += 1;
    }
    put(Path::new("times"), times.as_bytes())?;
    Ok(count)
}

pub fn unpack(words: &Words, out: &mut dyn Write) -> Ended {
    let (from, to) = match &words.operands[..] {
        [from, to] => (from, Path::new(to)),
        _ => return usage("unpack takes a bundle and a folder that is made for it"),
    };
    let table = Table::read(from, Times::default(), false)?;
    if let Err(refusal) = is_bundle(&table.bundle) {
        return refusals::tell(refusal, &table.bundle, false, out);
    }
    if let Some(file) = bundle::files(&table.bundle).find(|file| !is_below(Path::new(&text(file.name)))) {
        return system(format!("the name {} leads out of the folder; nothing was unpacked", shown(&text(file.name))));
    }
    if fs::symlink_metadata(to).is_ok() {
        return system(format!("{} is there already; name a folder that is not", path_shown(to)));
    }
    let folder = begun(to)?;
    let written = write_all(&table.bundle, &folder, to)
        .and_then(|count| fs::rename(&folder, to).map(|()| count).map_err(|error| cannot(to, error)));
    if written.is_err() && fs::remove_dir_all(&folder).is_err() {
        complain(&format!("{} is not whole; remove it", path_shown(&folder)));
    }
    writeln!(out, "{} unpacked to {}", counted(written?, "file", "files"), path_shown(to))?;
    Ok(Ending::Answered)
}
