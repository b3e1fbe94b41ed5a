//! Links libcahermisk.a, the proved library, from one of some `places`, if it is for the right `machine`.

mod machine;
mod places;

use std::env;
use std::path::{Path, PathBuf};
use std::process::exit;

fn main() {
    for variable in [places::DIR_VARIABLE, "PKG_CONFIG_PATH"] {
        println!("cargo:rerun-if-env-changed={variable}");
    }
    match archive() {
        Ok(archive) => link(&archive),
        Err(told) => {
            println!("cargo::error={told}");
            exit(1);
        }
    }
}

/// The archive to be linked, or a sentence that says why there is none.
fn archive() -> Result<PathBuf, String> {
    let archive = places::find()?;
    machine::judge(&archive)?;
    Ok(archive)
}

fn link(archive: &Path) {
    println!("cargo:rerun-if-changed={}", archive.display());
    if let Some(dir) = archive.parent() {
        println!("cargo:rustc-link-search=native={}", dir.display());
    }
    println!("cargo:rustc-link-lib=static=cahermisk");
    // The tests link C programs with the same archive, and run this program in other places.
    println!("cargo:rustc-env=CAHERMISK_ARCHIVE={}", archive.display());
    let script = env::current_exe().unwrap_or_default();
    println!("cargo:rustc-env=CAHERMISK_BUILD={}", script.display());
}
