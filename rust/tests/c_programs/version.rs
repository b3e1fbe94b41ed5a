//! The version is one in the header, the library, the package, the program `scan` and README.md.

use super::printed_by;
use super::shared::SONAME;

const VERSION: &str = env!("CARGO_PKG_VERSION");

const PROGRAM: &str = "\
#include <cahermisk.h>
#include <stdio.h>
int main(void) {
    printf(\"%s %lu %lu\\n\", CAHERMISK_VERSION_TEXT, (unsigned long)CAHERMISK_VERSION,
        (unsigned long)cahermisk_version());
    return 0;
}
";

#[test]
fn header_library_and_package_have_one_version() {
    let parts = VERSION.split('.').map(|part| part.parse::<u32>());
    let number = parts.fold(0, |number, part| number * 1000 + part.expect("a number"));
    let printed = printed_by("version", PROGRAM);
    assert_eq!(printed, format!("{VERSION} {number} {number}\n"));
}

/// What `scan --version` prints stands in its sentences, as `scan ` and a number.
#[test]
fn the_program_says_that_version() {
    let sentences = include_str!("../../../crates/scan_says/src/lib.rt");
    let texts = sentences.split("b\"scan ").skip(1);
    let texts = texts.filter_map(|text| text.split('"').next());
    let said: Vec<_> = texts
        .filter(|text| text.starts_with(|c: char| c.is_ascii_digit()))
        .collect();
    assert_eq!(
        said,
        [format!("{VERSION}\\n")],
        "crates/scan_says/src/lib.rt"
    );
}

#[test]
fn the_readme_names_the_files_of_that_version() {
    let readme = include_str!("../../../README.md");
    for name in [
        format!("`libcahermisk.so.{VERSION}`"),
        format!("`{SONAME}`"),
    ] {
        assert!(readme.contains(&name), "README.md does not name {name}");
    }
}
