//! The package's build script in places made for it: which archive it links, and the sentence where there
//! is none.

use std::fs;
use std::path::{Path, PathBuf};
use std::process::Command;

/// A folder in which a package stands, in `rust`, and archives may.
struct Place {
    top: PathBuf,
    script: Command,
}

/// What Cargo calls the machine at hand, and one that the library is not for.
const HERE: &str = std::env::consts::ARCH;
const ELSEWHERE: &str = if cfg!(target_arch = "x86_64") {
    "aarch64"
} else {
    "x86_64"
};

impl Place {
    fn new(name: &str) -> Place {
        let top = Path::new(env!("CARGO_TARGET_TMPDIR")).join(name);
        if top.exists() {
            fs::remove_dir_all(&top).expect("the folder of an earlier run can be removed");
        }
        let package = top.join("rust");
        fs::create_dir_all(&package).expect("a folder can be made");
        let mut script = Command::new(env!("CAHERMISK_BUILD"));
        script
            .env_clear()
            .env("CARGO_MANIFEST_DIR", &package)
            .env("CARGO_CFG_TARGET_ARCH", HERE)
            .env(
                "PATH",
                concat!(env!("CARGO_MANIFEST_DIR"), "/tests/linking"),
            )
            .current_dir(package);
        let top = top.canonicalize().expect("the folder just made");
        Place { top, script }
    }

    /// Puts the library, or other bytes, into a folder of the place.
    fn put(self, folder: &str, bytes: &[u8]) -> Place {
        let folder = self.top.join(folder);
        fs::create_dir_all(&folder).expect("a folder can be made");
        fs::write(folder.join("libcahermisk.a"), bytes).expect("an archive can be written");
        self
    }

    fn with(mut self, variable: &str, value: &str) -> Place {
        self.script.env(variable, value);
        self
    }

    /// The folder of the place that the linker is told, or the sentence of the refusal.
    fn linked(mut self) -> Result<String, String> {
        let output = self.script.output().expect("the build script can be run");
        let printed = String::from_utf8(output.stdout).expect("text");
        let told = |key: &str| printed.lines().find_map(|line| line.strip_prefix(key));
        let top = format!("{}/", self.top.display());
        if let Some(sentence) = told("cargo::error=") {
            assert!(!output.status.success(), "{printed}");
            return Err(sentence.replace(&top, ""));
        }
        assert!(output.status.success(), "{printed}");
        assert_eq!(told("cargo:rustc-link-lib="), Some("static=cahermisk"));
        let folder = told("cargo:rustc-link-search=native=").expect("a folder is told");
        Ok(folder.replace(&top, ""))
    }
}

fn library() -> Vec<u8> {
    fs::read(env!("CAHERMISK_ARCHIVE")).expect("the library that this test is linked with")
}

const BUILT: &str = "target/staticlib";

#[test]
fn the_named_folder_comes_first() {
    let place = Place::new("linked-named").put(BUILT, &library());
    let named = place.top.join("named");
    let place = place.put("named", &library());
    let place = place.with("CAHERMISK_LIB_DIR", named.to_str().expect("a plain name"));
    assert_eq!(place.linked(), Ok("named".to_owned()));
}

#[test]
fn a_named_folder_without_the_archive_is_not_passed_over() {
    let place = Place::new("linked-nowhere").put(BUILT, &library());
    let told = "There is no libcahermisk.a in /none, which CAHERMISK_LIB_DIR names.";
    let place = place.with("CAHERMISK_LIB_DIR", "/none");
    assert_eq!(place.linked(), Err(told.to_owned()));
}

#[test]
fn a_relative_folder_is_taken_from_the_package() {
    let place = Place::new("linked-relative").put("rust/named", &library());
    let place = place.with("CAHERMISK_LIB_DIR", "named");
    assert_eq!(place.linked(), Ok("rust/named".to_owned()));

    let place = Place::new("linked-relative-none").put(BUILT, &library());
    let told =
        "There is no libcahermisk.a in rust/target/staticlib, which CAHERMISK_LIB_DIR names \
                from the package's folder on, not from where cargo was started.";
    let place = place.with("CAHERMISK_LIB_DIR", BUILT);
    assert_eq!(place.linked(), Err(told.to_owned()));
}

#[test]
fn the_library_just_built_comes_before_an_installed_one() {
    let place = Place::new("linked-built").put(BUILT, &library());
    let place = place.put("lib", &library()).with("INSTALLED", "../lib");
    let place = place.with("CAHERMISK_LIB_DIR", "");
    assert_eq!(place.linked(), Ok(BUILT.to_owned()));
}

#[test]
fn an_installed_library_is_found_by_pkg_config() {
    let place = Place::new("linked-installed").put("lib", &library());
    let place = place.with("INSTALLED", "../lib");
    assert_eq!(place.linked(), Ok("lib".to_owned()));
}

const ADVICE: &str = "Run `make lib` at the top of the repository, or `make install`, \
                      or set CAHERMISK_LIB_DIR to the archive's folder.";

#[test]
fn where_there_is_none_all_places_are_told() {
    let none = "There is no libcahermisk.a in rust/../target/staticlib,";
    let told = format!("{none} and pkg-config finds none that is installed. {ADVICE}");
    assert_eq!(Place::new("linked-none").linked(), Err(told.clone()));
    let without_pkg_config = Place::new("linked-alone").with("PATH", "");
    assert_eq!(without_pkg_config.linked(), Err(told));

    let place = Place::new("linked-gone").with("INSTALLED", "/none");
    let told = format!("{none} nor in /none, which pkg-config names. {ADVICE}");
    assert_eq!(place.linked(), Err(told));
}

/// An archive as `ar` writes it: a list of symbols of an odd length, and then an ELF object for a machine.
fn archive_for(machine: u16) -> Vec<u8> {
    let mut object = b"\x7FELF\x02\x01\x01\0\0\0\0\0\0\0\0\0\x01\0".to_vec();
    object.extend(machine.to_le_bytes());
    let mut archive = b"!<arch>\n".to_vec();
    for (name, member) in [("/", &b"odd"[..]), ("module.o/", &object)] {
        let head = format!("{name:<16}{:<32}{:<10}`\n", 0, member.len());
        archive.extend(head.bytes().chain(member.iter().copied()));
        archive.resize(archive.len().next_multiple_of(2), b'\n');
    }
    archive
}

#[test]
fn an_archive_for_another_machine_is_refused() {
    let advice = "`make lib` writes it for the machine that it runs on.";
    let refused = |bytes: &[u8], arch, machine| {
        let place = Place::new("linked-machine").put(BUILT, bytes);
        let told = format!("{BUILT}/libcahermisk.a is for {machine}, and this build is for {arch}");
        let linked = place.with("CARGO_CFG_TARGET_ARCH", arch).linked();
        assert_eq!(linked, Err(format!("{told}: {advice}")));
    };
    refused(&library(), ELSEWHERE, HERE);
    refused(&archive_for(62), "aarch64", "x86_64");
    refused(&archive_for(183), "x86_64", "aarch64");
    refused(
        &archive_for(40),
        "x86_64",
        "another machine (number 40 of ELF)",
    );
}

/// What does not tell its machine is the linker's to judge, and so is a machine that the script does not
/// know.
#[test]
fn other_archives_are_left_to_the_linker() {
    let cut = &archive_for(183)[..140];
    for (bytes, arch) in [
        (&archive_for(62)[..], "x86_64"),
        (&archive_for(183), "aarch64"),
        (&archive_for(183), "riscv64"),
        (b"no archive", HERE),
        (b"", HERE),
        (cut, HERE),
    ] {
        let place = Place::new("linked-any").put(BUILT, bytes);
        let place = place.with("CARGO_CFG_TARGET_ARCH", arch);
        assert_eq!(place.linked(), Ok(BUILT.to_owned()));
    }
}
