//! Where the archive is looked for: in the folder that is named, and there alone; or where `make lib`
//! writes it; or where `make install` put it, as pkg-config tells.

use std::env;
use std::ffi::OsStr;
use std::path::{Path, PathBuf};
use std::process::Command;

pub const DIR_VARIABLE: &str = "CAHERMISK_LIB_DIR";
const ARCHIVE: &str = "libcahermisk.a";

pub fn find() -> Result<PathBuf, String> {
    let named = env::var_os(DIR_VARIABLE).filter(|dir| !dir.is_empty());
    match named {
        Some(dir) => in_named(&dir),
        None => in_usual(),
    }
}

/// The folder of this package, which paths are taken from.
fn package() -> PathBuf {
    env::var_os("CARGO_MANIFEST_DIR").unwrap_or_default().into()
}

/// The archive of a folder.
fn of(dir: &Path) -> Option<PathBuf> {
    let archive = dir.canonicalize().ok()?.join(ARCHIVE);
    archive.is_file().then_some(archive)
}

fn in_named(named: &OsStr) -> Result<PathBuf, String> {
    let dir = package().join(named);
    of(&dir).ok_or_else(|| {
        let from = match Path::new(named).is_relative() {
            true => " from the package's folder on, not from where cargo was started",
            false => "",
        };
        let dir = dir.display();
        format!("There is no {ARCHIVE} in {dir}, which {DIR_VARIABLE} names{from}.")
    })
}

fn in_usual() -> Result<PathBuf, String> {
    let built = package().join("../target/staticlib");
    if let Some(archive) = of(&built) {
        return Ok(archive);
    }
    let installed = installed();
    installed.as_deref().and_then(of).ok_or_else(|| {
        let nor = match installed {
            Some(dir) => format!("nor in {}, which pkg-config names", dir.display()),
            None => "and pkg-config finds none that is installed".to_owned(),
        };
        let built = built.display();
        format!(
            "There is no {ARCHIVE} in {built}, {nor}. Run `make lib` at the top of the repository, \
             or `make install`, or set {DIR_VARIABLE} to the archive's folder."
        )
    })
}

/// The folder that pkg-config tells, if it can be run and knows the library.
fn installed() -> Option<PathBuf> {
    let mut ask = Command::new("pkg-config");
    let told = ask.args(["--variable=libdir", "cahermisk"]).output().ok()?;
    let dir = String::from_utf8(told.stdout).ok()?;
    let dir = dir.trim_end();
    (!dir.is_empty()).then(|| dir.into())
}
