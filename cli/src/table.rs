//! TABLE: a folder that holds `_transaction_log`, a bundle, or `-` for a bundle on standard input.

use std::ffi::OsStr;
use std::fs::{self, File};
use std::io::{self, Read};
use std::path::{Path, PathBuf};

use kerumpase::bundle::MOST_BYTES;

use crate::ending::{system, usage, Fail};
use crate::folder::{self, path_shown, Packed, Times};
use crate::words::Words;

#[derive(Debug)]
pub struct Table {
    /// As the user named it.
    pub name: String,
    pub bundle: Vec<u8>,
    /// Where it is a folder.
    pub folder: Option<Folder>,
}

#[derive(Debug)]
pub struct Folder {
    pub path: PathBuf,
    pub packed: Packed,
    pub times: Times,
}

impl Table {
    /// The table that a command's one operand names.
    pub fn of(words: &Words) -> Result<Table, Fail> {
        Table::read(words.operand("TABLE")?, Times::from_options(&words.values("--time")?)?, false)
    }

    pub fn read(operand: &OsStr, times: Times, all: bool) -> Result<Table, Fail> {
        let path = Path::new(operand);
        let name = path_shown(path);
        let only_of_folders = || usage("--time is for folders; a bundle brings the times of its files");
        if operand == "-" {
            if !times.is_empty() {
                return only_of_folders();
            }
            return Ok(Table { name, bundle: at_most(io::stdin().lock(), "standard input")?, folder: None });
        }
        let metadata = match fs::metadata(path) {
            Ok(metadata) => metadata,
            Err(error) if error.kind() == io::ErrorKind::NotFound => return system(format!("there is no {name}")),
            Err(error) => return system(format!("{name} cannot be read: {error}")),
        };
        if !metadata.is_dir() {
            if !times.is_empty() {
                return only_of_folders();
            }
            let file = File::open(path).or_else(|error| system(format!("{name} cannot be read: {error}")))?;
            return Ok(Table { bundle: at_most(file, &name)?, name, folder: None });
        }
        let mut packed = folder::pack(path, &times, all)?;
        let bundle = std::mem::take(&mut packed.bundle);
        Ok(Table { name, bundle, folder: Some(Folder { path: path.to_path_buf(), packed, times }) })
    }
}

/// All bytes of an input that is as long as a bundle may be.
fn at_most(input: impl Read, name: &str) -> Result<Vec<u8>, Fail> {
    let mut bytes = Vec::new();
    match input.take(MOST_BYTES as u64 + 1).read_to_end(&mut bytes) {
        Ok(_) if bytes.len() > MOST_BYTES => {
            system(format!("{name} is too long: a bundle has at most {MOST_BYTES} bytes"))
        }
        Ok(_) => Ok(bytes),
        Err(error) => system(format!("{name} cannot be read: {error}")),
    }
}
