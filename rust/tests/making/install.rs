//! `make install` and `make uninstall`: which files, what cahermisk.pc says, and what is refused.

use std::fs;
use std::os::unix::fs::symlink;
use std::path::{Path, PathBuf};
use std::process::Command;

use crate::commands::{run, NEEDS_CC};
use crate::repository::{folder, library, make_of, repository, with_program, write, NEEDS_MAKE};

const VERSION: &str = env!("CARGO_PKG_VERSION");

/// All files below a folder, by their places in it.
fn files(folder: &Path) -> Vec<String> {
    let mut found = Vec::new();
    let mut folders = vec![folder.to_owned()];
    while let Some(next) = folders.pop() {
        for entry in fs::read_dir(&next).expect("the folder can be read") {
            let path = entry.expect("its entry too").path();
            if path.is_dir() {
                folders.push(path);
            } else {
                let place = path.strip_prefix(folder).expect("it is below the folder");
                found.push(place.display().to_string());
            }
        }
    }
    found.sort();
    found
}

/// A library of which only the names matter: an archive, and a shared object with its links.
fn named_library(room: &Path) -> PathBuf {
    let lib = folder(room.join("target/staticlib"));
    let shared = format!("libcahermisk.so.{VERSION}");
    write(lib.join("libcahermisk.a"), "archive", 0o644);
    write(lib.join(&shared), "shared object", 0o755);
    for link in [soname(), "libcahermisk.so".to_owned()] {
        symlink(&shared, lib.join(link)).expect("a link can be made");
    }
    lib
}

/// The shared object's name for the loader: with the version's first two numbers.
fn soname() -> String {
    let (compatible, _) = VERSION
        .rsplit_once('.')
        .expect("a version of three numbers");
    format!("libcahermisk.so.{compatible}")
}

const FOLDERS: [&str; 6] = [
    "PREFIX=/opt/c",
    "BINDIR=/b",
    "LIBDIR=/l/64",
    "LIBEXECDIR=/x",
    "INCLUDEDIR=/i",
    "MANDIR=/m",
];

/// What is installed into those folders, the older shared object that was there before among it.
fn installed() -> Vec<String> {
    let mut files = vec![
        format!("l/64/libcahermisk.so.{VERSION}"),
        format!("l/64/{}", soname()),
    ];
    files.extend(
        [
            OLDER,
            "b/scan",
            "i/cahermisk.h",
            "l/64/libcahermisk.a",
            "l/64/libcahermisk.so",
            "l/64/pkgconfig/cahermisk.pc",
            "m/man1/scan.1",
            "x/cahermisk/scan",
        ]
        .map(str::to_owned),
    );
    files.sort();
    files
}

const OLDER: &str = "l/64/libcahermisk.so.0.0";

#[test]
fn what_is_installed_is_removed_and_nothing_else() {
    let room = repository("install_files", "x86_64");
    with_program(&room);
    let lib = named_library(&room);
    let stage = room.join("stage");
    let destdir = format!("DESTDIR={}", stage.display());
    folder(stage.join("l/64"));
    write(stage.join(OLDER), "for programs that need it", 0o644);
    let make = |goal: &str| {
        let mut command = make_of(&room, &lib, &[goal, &destdir]);
        run(command.args(FOLDERS), NEEDS_MAKE);
    };
    make("install");
    assert_eq!(files(&stage), installed());
    let is_link = |name: &str| stage.join("l/64").join(name).is_symlink();
    assert!(is_link("libcahermisk.so") && is_link(&soname()));
    make("uninstall");
    assert_eq!(files(&stage), [OLDER]);
}

#[test]
fn a_scan_of_another_is_not_removed() {
    let room = repository("install_another", "aarch64");
    let prefix = format!("PREFIX={}", room.join("at").display());
    let bin = folder(room.join("at/bin"));
    write(bin.join("scan"), "another program", 0o755);
    run(
        &mut make_of(&room, library(), &["uninstall", &prefix]),
        NEEDS_MAKE,
    );
    assert_eq!(files(&room.join("at")), ["bin/scan"]);
}

#[test]
fn install_says_why_there_is_no_scan() {
    for (machine, reason) in [
        (
            "aarch64",
            "scan is for x86-64, and is not installed on aarch64\n",
        ),
        ("x86_64", "scan is not installed: make run builds it\n"),
    ] {
        let room = repository(&format!("install_without_scan_{machine}"), machine);
        if machine != "x86_64" {
            with_program(&room);
        }
        let prefix = format!("PREFIX={}", room.join("at").display());
        let output = run(
            &mut make_of(&room, library(), &["install", &prefix]),
            NEEDS_MAKE,
        );
        let said = String::from_utf8_lossy(&output.stdout);
        assert!(said.ends_with(reason), "{said}");
        let installed = files(&room.join("at"));
        assert!(installed.contains(&"lib/libcahermisk.a".to_owned()));
        assert!(!installed.contains(&"bin/scan".to_owned()));
    }
}

/// Ends with a sentence that has these words, and writes nothing.
fn refused(repository: &Path, library: &Path, prefix: &str, words: &str) {
    let before = files(repository);
    let mut command = make_of(
        repository,
        library,
        &["install", &format!("PREFIX={prefix}")],
    );
    let output = command.output().expect(NEEDS_MAKE);
    let said = String::from_utf8_lossy(&output.stderr);
    assert!(!output.status.success(), "{prefix} is taken");
    assert!(
        said.starts_with("install: ") && said.contains(words),
        "{said}"
    );
    assert_eq!(files(repository), before);
}

#[test]
fn a_library_that_is_not_built_or_of_another_version_is_not_installed() {
    let room = repository("install_unbuilt", "x86_64");
    let empty = folder(room.join("empty"));
    let prefix = room.join("at").display().to_string();
    refused(&room, &empty, &prefix, "run make lib first");

    let lib = named_library(&room);
    let shared = lib.join(format!("libcahermisk.so.{VERSION}"));
    let older = lib.join("libcahermisk.so.0.0.0");
    fs::rename(shared, older).expect("it is there");
    let link = lib.join("libcahermisk.so");
    fs::remove_file(&link).expect("it is there");
    symlink("libcahermisk.so.0.0.0", link).expect("a link can be made");
    refused(&room, &lib, &prefix, "is not of version");
}

#[test]
fn a_prefix_that_would_not_come_through_is_refused() {
    let room = repository("install_refused", "x86_64");
    refused(&room, library(), "", "must begin with /");
    refused(&room, library(), "at", "must begin with /");
    for odd in ["'", "\"", "`", "\\", "$$", "#", ":", "(", ")", "\n"] {
        let prefix = format!("{}/a{odd}b", room.display());
        refused(&room, library(), &prefix, "choose one without");
    }
    let prefix = format!("{}/blank ", room.display());
    refused(&room, library(), &prefix, "choose one without");
}

const CALLER: &str = "\
#include <cahermisk.h>
#include <stdio.h>
int main(void) {
    const uint8_t page[] = {0x88, 0xC6, 0xFA};
    uint8_t bitmap[CAHERMISK_BITMAP_BYTES(8)];
    cahermisk_answer answer = cahermisk_horizontal_scan(
        page, sizeof page, 3, 8, CAHERMISK_BETWEEN, 2, 4, bitmap, sizeof bitmap);
    printf(\"%u %u\\n\", (unsigned)answer.code, (unsigned)answer.number);
    return 0;
}
";

/// The compiler's words for the installed library: pkg-config's, or by the text where there is none.
fn compiler_words(pc: &str, folder: &Path) -> String {
    let mut command = Command::new("pkg-config");
    command.args(["--cflags", "--libs", "cahermisk"]);
    command.env("PKG_CONFIG_LIBDIR", folder);
    if let Ok(output) = command.env_remove("PKG_CONFIG_PATH").output() {
        assert!(output.status.success(), "{output:?}");
        return String::from_utf8(output.stdout).expect("plain words");
    }
    let value = |name: &str| {
        let line = pc.lines().find_map(|line| line.strip_prefix(name));
        line.unwrap_or_else(|| panic!("cahermisk.pc has no {name}"))
    };
    let words = [value("Cflags: "), " ", value("Libs: ")].concat();
    let words = words.replace("${includedir}", value("includedir="));
    let words = words.replace("${libdir}", value("libdir="));
    words.replace("${prefix}", value("prefix="))
}

#[test]
fn an_installed_library_is_found_by_its_pc_file() {
    let room = repository("install_compiled", "aarch64");
    let at = room.join("a, b & c");
    let prefix = format!("PREFIX={}", at.display());
    let libdir = format!("LIBDIR={}/lib 64", at.display());
    run(
        &mut make_of(&room, library(), &["install", &prefix, &libdir]),
        NEEDS_MAKE,
    );
    let folder = at.join("lib 64/pkgconfig");
    let pc = fs::read_to_string(folder.join("cahermisk.pc")).expect("it is installed");
    let head = format!(
        "prefix={}\nincludedir=${{prefix}}/include\nlibdir=${{prefix}}/lib 64\n",
        at.display()
    );
    assert!(pc.starts_with(&head), "{pc}");
    assert!(pc.contains(&format!("\nVersion: {VERSION}\n")), "{pc}");
    assert!(!pc.contains('@'), "{pc}");

    fs::write(room.join("caller.c"), CALLER).expect("a source file can be written");
    let words = compiler_words(&pc, &folder);
    let mut compiled = Command::new("sh");
    compiled.args(["-c", &format!("cc caller.c -o caller {words}")]);
    run(compiled.current_dir(&room), NEEDS_CC);
    let mut caller = Command::new(room.join("caller"));
    let output = run(
        caller.env("LD_LIBRARY_PATH", at.join("lib 64")),
        "the program just linked",
    );
    assert_eq!(String::from_utf8_lossy(&output.stdout), "0 3\n");
}
