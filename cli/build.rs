//! Puts what the library says of itself (its file PROVED: kit, commit, digests) into the program, for `kerumpase --version`.

use std::path::{Path, PathBuf};

fn main() {
    println!("cargo:rerun-if-env-changed=KERUMPASE_LIB");
    let proved = proved();
    if let Some(path) = &proved {
        println!("cargo:rerun-if-changed={}", path.display());
    }
    let said = proved.and_then(|path| std::fs::read_to_string(path).ok());
    let said = said.map_or_else(|| "The library brings no file PROVED.\n".to_string(), |said| head(&said));
    let folder = std::env::var_os("OUT_DIR").expect("cargo sets OUT_DIR");
    std::fs::write(Path::new(&folder).join("PROVED"), said).expect("the folder of the build can be written");
}

/// What the library is, and of what it was made: the first two paragraphs.
fn head(said: &str) -> String {
    let paragraphs: Vec<&str> = said.split("\n\n").take(2).map(str::trim_end).collect();
    paragraphs.join("\n") + "\n"
}

/// share/doc/kerumpase/PROVED beside the library's folder, or where pkg-config has the library.
fn proved() -> Option<PathBuf> {
    let lib = match std::env::var_os("KERUMPASE_LIB") {
        Some(lib) => PathBuf::from(lib),
        None => {
            let said =
                std::process::Command::new("pkg-config").args(["--variable=libdir", "kerumpase"]).output().ok()?;
            PathBuf::from(String::from_utf8(said.stdout).ok()?.trim())
        }
    };
    let lib = lib.canonicalize().ok()?;
    lib.ancestors().skip(1).map(|above| above.join("share/doc/kerumpase/PROVED")).find(|path| path.is_file())
}
