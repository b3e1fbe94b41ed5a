//! Commands that tests run as users do: where, and what comes of them.

use std::fs;
use std::path::{Path, PathBuf};
use std::process::{Command, Output};

pub const NEEDS_CC: &str = "this test needs a C compiler, cc, on PATH";

/// The top of the repository.
pub fn top() -> PathBuf {
    Path::new(env!("CARGO_MANIFEST_DIR")).join("..")
}

/// A new folder to compile in.
pub fn room(name: &str) -> PathBuf {
    let room = Path::new(env!("CARGO_TARGET_TMPDIR")).join(name);
    if room.exists() {
        fs::remove_dir_all(&room).expect("the folder of an earlier run can be removed");
    }
    fs::create_dir_all(&room).expect("a folder can be made");
    room
}

/// Runs a command and gives what it wrote; the test fails with what it said unless it ends well.
pub fn run(command: &mut Command, needs: &str) -> Output {
    let output = command
        .output()
        .unwrap_or_else(|error| panic!("{needs}: {error}"));
    assert!(
        output.status.success(),
        "{needs}: {command:?} ended with {}\n{}",
        output.status,
        String::from_utf8_lossy(&output.stderr)
    );
    output
}
