//! How the installed scan ends: by what the program, for which another stands in, told.

use std::fs;
use std::path::Path;
use std::process::{Command, Output};

use crate::commands::run;
use crate::repository::{library, make_of, repository, with_program, NEEDS_MAKE};

const NEEDS_SH: &str = "this test needs a shell, sh, on PATH";

/// What a command line prints on both outputs, and its status. `scan` is the installed one.
fn of_line(prefix: &Path, line: &str) -> (String, String, Option<i32>) {
    let mut shell = Command::new("sh");
    shell.args(["-c", line]).env(
        "PATH",
        format!("{}:/usr/bin:/bin", prefix.join("bin").display()),
    );
    let Output {
        status,
        stdout,
        stderr,
    } = shell.output().expect(NEEDS_SH);
    let text = |bytes: Vec<u8>| String::from_utf8(bytes).expect("plain text");
    (text(stdout), text(stderr), status.code())
}

#[test]
fn the_installed_scan_ends_with_1_where_it_told() {
    let room = repository("install_status", "x86_64");
    with_program(&room);
    let at = room.join("at, & here");
    let prefix = format!("PREFIX={}", at.display());
    run(
        &mut make_of(&room, library(), &["install", &prefix]),
        NEEDS_MAKE,
    );
    for (line, stdout, stderr, status) in [
        ("scan less 'a b' ''", "<less><a b><>", "", 0),
        ("scan told", "answer\n", "sentence\n", 1),
        ("scan told >/dev/null", "", "sentence\n", 1),
        ("scan told 2>&-", "answer\n", "", 1),
        ("scan told 2>/dev/null >&-", "", "", 1),
        ("echo given | scan read", "given\n", "", 0),
        ("scan read 2>/dev/null <&-", "", "", 0),
        (
            "scan less 3>three 4>four; cat three four; rm three four",
            "<less>",
            "",
            0,
        ),
        ("scan ended", "", "", 128 + 13),
    ] {
        let line = format!("cd '{}' && {line}", room.display());
        let expected = (stdout.to_owned(), stderr.to_owned(), Some(status));
        assert_eq!(of_line(&at, &line), expected, "{line}");
    }
    // What cannot be started says what it needs.
    fs::remove_file(at.join("libexec/cahermisk/scan")).expect("the program is there");
    let (_, stderr, status) = of_line(&at, "scan less");
    assert!(
        stderr.ends_with("it needs x86-64 Linux with glibc 2.34 or newer\n"),
        "{stderr}"
    );
    assert_eq!(status, Some(127));
}
