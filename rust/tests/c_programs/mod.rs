//! Programs in C over the library: compiled in a folder of their own, and run.

use std::fs;
use std::path::PathBuf;
use std::process::Command;

use crate::commands::{room, run, top, NEEDS_CC};

mod rooms;
mod shared;
mod stack;
mod version;

/// Compiles a program that includes the header, and links it by these words for the linker, in a new folder.
pub fn compiled(name: &str, text: &str, linked: &[&str]) -> PathBuf {
    let room = room(name);
    let source = room.join(format!("{name}.c"));
    let program = room.join(name);
    fs::write(&source, text).expect("a source file can be written");
    run(
        Command::new("cc")
            .args(["-std=c99", "-Wall", "-Wextra", "-Wpedantic", "-Werror"])
            .arg("-I")
            .arg(top().join("include"))
            .arg(&source)
            .arg("-o")
            .arg(&program)
            .args(linked),
        NEEDS_CC,
    );
    program
}

/// What a program prints.
pub fn printed(program: &mut Command) -> String {
    let output = run(program, "the program just compiled");
    String::from_utf8(output.stdout).expect("it prints text")
}

/// What a program over the archive prints.
pub fn printed_by(name: &str, text: &str) -> String {
    let program = compiled(name, text, &[env!("CAHERMISK_ARCHIVE")]);
    printed(&mut Command::new(program))
}
