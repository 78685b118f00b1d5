//! What the tests of the command share: running it, folders that go away again, generated tables.
#![allow(dead_code)]

use std::path::{Path, PathBuf};
use std::process::{Command, Output};
use std::sync::atomic::{AtomicUsize, Ordering};

pub const KERUMPASE: &str = env!("CARGO_BIN_EXE_kerumpase");
pub const TOP: &str = concat!(env!("CARGO_MANIFEST_DIR"), "/..");

/// What the command said, and its exit status.
#[derive(Debug, PartialEq, Eq)]
pub struct Said {
    pub status: Option<i32>,
    pub out: String,
    pub err: String,
}

impl Said {
    pub fn of(output: Output) -> Said {
        let text = |bytes: Vec<u8>| String::from_utf8_lossy(&bytes).to_string();
        Said { status: output.status.code(), out: text(output.stdout), err: text(output.stderr) }
    }
}

/// Runs the command from the top of the repository.
pub fn kerumpase(words: &[&str]) -> Said {
    Said::of(Command::new(KERUMPASE).args(words).current_dir(TOP).output().expect("it can be run"))
}

/// Runs a line of a shell there, in which `kerumpase` is the command.
pub fn shell(line: &str) -> Said {
    let folder = Path::new(KERUMPASE).parent().expect("it is in a folder");
    let path = format!("{}:{}", folder.display(), std::env::var("PATH").unwrap_or_default());
    Said::of(Command::new("sh").args(["-c", line]).env("PATH", path).current_dir(TOP).output().expect("sh can be run"))
}

/// A folder that goes away with its owner.
pub struct Folder(pub PathBuf);

impl Folder {
    pub fn new(name: &str) -> Folder {
        static NEXT: AtomicUsize = AtomicUsize::new(0);
        let number = NEXT.fetch_add(1, Ordering::Relaxed);
        let folder = std::env::temp_dir().join(format!("kerumpase-{name}-{}-{number}", std::process::id()));
        std::fs::create_dir_all(&folder).expect("a folder can be made");
        Folder(folder)
    }

    pub fn path(&self, name: &str) -> String {
        self.0.join(name).to_str().expect("it is UTF-8").to_string()
    }

    pub fn write(&self, name: &str, bytes: &[u8]) -> String {
        let path = self.path(name);
        std::fs::create_dir_all(Path::new(&path).parent().expect("it is in the folder")).expect("a folder can be made");
        std::fs::write(&path, bytes).expect("it can be written");
        path
    }
}

impl Drop for Folder {
    fn drop(&mut self) {
        let _ = std::fs::remove_dir_all(&self.0);
    }
}

/// Generated tables, as many as asked for.
pub fn tables(count: usize, seed: u64, faults: bool) -> (Folder, Vec<String>) {
    let folder = Folder::new("tables");
    let script = concat!(env!("CARGO_MANIFEST_DIR"), "/tests/make-tables");
    let mut command = Command::new("python3");
    command.args([script, &count.to_string(), &folder.path(""), &seed.to_string()]);
    if faults {
        command.arg("--faults");
    }
    assert!(command.status().expect("python3 can be run").success());
    let tables = (0..count).map(|number| folder.path(&format!("table-{number:04}"))).collect();
    (folder, tables)
}

/// The text of a member of a line of JSON, where it stands plainly.
pub fn member<'a>(line: &'a str, name: &str) -> &'a str {
    let from = line.find(&format!("\"{name}\":")).unwrap_or_else(|| panic!("no {name} in {line}")) + name.len() + 3;
    line[from..].split([',', '}']).next().expect("split gives one").trim_matches('"')
}
