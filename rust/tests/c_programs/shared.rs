//! The shared object: it is found by its soname, and exports the header's functions alone.

use std::collections::BTreeSet;
use std::fs;
use std::path::Path;
use std::process::Command;

use super::{compiled, printed};
use crate::commands::run;

const HEADER: &str = include_str!("../../../include/cahermisk.h");
const VERSION: &str = env!("CARGO_PKG_VERSION");
pub const SONAME: &str = concat!(
    "libcahermisk.so.",
    env!("CARGO_PKG_VERSION_MAJOR"),
    ".",
    env!("CARGO_PKG_VERSION_MINOR")
);

/// Where the library's files are.
fn folder() -> &'static Path {
    let folder = Path::new(env!("CAHERMISK_ARCHIVE")).parent();
    folder.expect("the archive is in a folder")
}

const PROGRAM: &str = "\
#include <cahermisk.h>
#include <stdio.h>
int main(void) {
    const uint8_t page[] = {0x06, 0x04, 0x03, 0x88, 0xC6, 0xFA};
    uint8_t bitmap[CAHERMISK_BITMAP_BYTES(11)];
    cahermisk_answer answer = cahermisk_runs_scan(page, sizeof page, 3, 11, CAHERMISK_GREATER, 3, 0,
        bitmap, sizeof bitmap);
    cahermisk_run run = cahermisk_runs_next(page, sizeof page, 3, 11, 2, 3);
    printf(\"%s, %u selected, a run of %zu\\n\", cahermisk_code_text(answer.code),
        (unsigned)answer.number, run.length);
    return cahermisk_version() != CAHERMISK_VERSION;
}
";

#[test]
fn a_program_finds_it_by_its_soname() {
    let search = format!("-L{}", folder().display());
    let program = compiled("shared", PROGRAM, &[&search, "-lcahermisk"]);
    let linked = fs::read(&program).expect("the program can be read");
    let names_it = |part: &[u8]| part == SONAME.as_bytes();
    assert!(linked.windows(SONAME.len()).any(names_it), "by {SONAME}");

    // A folder that has it by that name and by no other.
    let own = program.parent().expect("the program is in a folder");
    let object = folder().join(format!("libcahermisk.so.{VERSION}"));
    fs::copy(object, own.join(SONAME)).expect("the shared object is beside the archive");
    let printed = printed(Command::new(&program).env("LD_LIBRARY_PATH", own));
    assert_eq!(printed, "accepted, 7 selected, a run of 8\n");
}

/// The functions that the header declares and does not define itself.
fn declared() -> BTreeSet<String> {
    let begins = |line: &&str| line.starts_with(|c: char| c.is_ascii_alphabetic());
    let own = |line: &&str| line.starts_with("static ");
    let lines = HEADER.lines().filter(|line| begins(line) && !own(line));
    let heads = lines.filter_map(|line| line.split_once('('));
    let names = heads.filter_map(|(head, _)| head.split_whitespace().last());
    names.map(str::to_owned).collect()
}

/// The names that nm lists of the object, which by a word to it are those defined there or those not.
fn listed(which: &str) -> BTreeSet<String> {
    let mut nm = Command::new("nm");
    nm.args(["-D", which]).arg(folder().join("libcahermisk.so"));
    let output = run(&mut nm, "this test needs nm, of binutils, on PATH");
    let text = String::from_utf8(output.stdout).expect("nm prints text");
    let names = text.lines().filter_map(|line| line.split(' ').next_back());
    names.map(str::to_owned).collect()
}

#[test]
fn it_exports_what_the_header_declares() {
    assert_eq!(listed("--defined-only"), declared());
}

/// All that the header says the functions call.
#[test]
fn it_calls_nothing_but_memset() {
    let memset = BTreeSet::from(["memset".to_owned()]);
    assert_eq!(listed("--undefined-only"), memset);
}
