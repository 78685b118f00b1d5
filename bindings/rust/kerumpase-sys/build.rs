//! Links libkerumpase.a: from the folder that KERUMPASE_LIB names, or from where pkg-config says that it is installed.

use std::path::{Path, PathBuf};
use std::process::{exit, Command};

const ARCHIVE: &str = "libkerumpase.a";

fn main() {
    println!("cargo:rerun-if-env-changed=KERUMPASE_LIB");
    println!("cargo:rerun-if-env-changed=PKG_CONFIG_PATH");
    let folder = match std::env::var_os("KERUMPASE_LIB") {
        Some(folder) => PathBuf::from(folder),
        None => installed().unwrap_or_else(|why| stop(&format!("KERUMPASE_LIB is not set, and {why}"))),
    };
    let archive = folder.join(ARCHIVE);
    if !archive.is_file() {
        stop(&format!("there is no {}", archive.display()));
    }
    let folder = folder.canonicalize().unwrap_or(folder);
    println!("cargo:rerun-if-changed={}", archive.display());
    println!("cargo:rustc-link-search=native={}", folder.display());
    println!("cargo:rustc-link-lib=static=kerumpase");
    // For crates above: DEP_KERUMPASE_FOLDER.
    println!("cargo:folder={}", folder.display());
}

/// The folder of the archive, as pkg-config knows it.
fn installed() -> Result<PathBuf, String> {
    let said = Command::new("pkg-config").args(["--variable=libdir", "kerumpase"]).output();
    let said = said.map_err(|error| format!("pkg-config cannot be run: {error}"))?;
    let folder = String::from_utf8_lossy(&said.stdout).trim().to_string();
    if !said.status.success() || folder.is_empty() {
        return Err("pkg-config knows no kerumpase".to_string());
    }
    Ok(Path::new(&folder).to_path_buf())
}

fn stop(why: &str) -> ! {
    eprintln!("kerumpase-sys: {why}");
    eprintln!(
        "kerumpase-sys: build the library by `tools/library PREFIX` and set KERUMPASE_LIB=PREFIX/lib, or install it"
    );
    exit(1)
}
