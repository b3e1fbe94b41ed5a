//! Every public function of the Rattle libraries has a contract, and the exported ones require nothing.

use std::fs;
use std::path::{Path, PathBuf};

/// A public function's name, whether C can call it, and the lines of its head, from `pub` to the brace that opens it.
struct Function<'a> {
    name: &'a str,
    is_exported: bool,
    head: Vec<&'a str>,
}

impl Function<'_> {
    fn has(&self, clause: &str) -> bool {
        let opens = |line: &&str| line.trim_start().starts_with(clause);
        self.head.iter().any(opens)
    }

    fn owes(&self) -> bool {
        !self.has("ensures ") || (self.is_exported && self.has("requires "))
    }
}

fn functions(text: &str) -> Vec<Function<'_>> {
    let lines: Vec<&str> = text.lines().collect();
    let begun = |i: usize| {
        let line = lines[i].trim_start();
        let exported = line.strip_prefix("pub extern \"C\" fn ");
        let rest = exported.or(line.strip_prefix("pub fn "))?;
        let opened = (i..lines.len()).find(|&k| lines[k].ends_with('{'))?;
        Some(Function {
            name: rest.split('(').next()?,
            is_exported: exported.is_some(),
            head: lines[i..=opened].to_vec(),
        })
    };
    (0..lines.len()).filter_map(begun).collect()
}

#[test]
fn a_function_that_owes_its_contract_is_found() {
    let text = "pub fn bare(n: u8) {\n    n\n}\n\npub fn told(\n    n: u8,\n) -> u8\n    requires { n }\n    ensures { result }\n{\n    n\n}\n\npub extern \"C\" fn lent(n: u8)\n    requires { n }\n    ensures { result }\n{\n}\n\nfn own() {\n}\n";
    let found = functions(text);
    let names: Vec<&str> = found.iter().map(|function| function.name).collect();
    assert_eq!(names, ["bare", "told", "lent"]);
    let owing: Vec<bool> = found.iter().map(Function::owes).collect();
    assert_eq!(owing, [true, false, true]);
}

/// The sources below a folder.
fn sources(folder: &Path) -> Vec<PathBuf> {
    let entries = fs::read_dir(folder).unwrap_or_else(|e| panic!("{}: {e}", folder.display()));
    let paths = entries.map(|entry| entry.expect("a folder's entry").path());
    paths
        .flat_map(|path| match path.is_dir() {
            true => sources(&path),
            false => vec![path],
        })
        .collect()
}

/// What reaches the words typed, files and streams, where libraries of the toolchain stood before: no contract can say what
/// the system gives or takes.
const OF_THE_SYSTEM: [&str; 3] = [
    "lines/src/streams.rt",
    "scan_says/src/system.rt",
    "scan_says/src/reasons.rt",
];

#[test]
fn every_public_function_has_its_contract() {
    let crates = Path::new(env!("CARGO_MANIFEST_DIR")).join("../crates");
    let folders = fs::read_dir(&crates).expect("the folder crates");
    let folders = folders.map(|folder| folder.expect("a crate's folder").path().join("src"));
    let libraries = folders.filter(|src| src.join("lib.rt").exists());
    let (mut all, mut exported, mut of_the_system) = (0, 0, 0);
    for path in libraries.flat_map(|src| sources(&src)) {
        if OF_THE_SYSTEM.iter().any(|file| path.ends_with(file)) {
            of_the_system += 1;
            continue;
        }
        let text = fs::read_to_string(&path).expect("a source");
        for function in functions(&text) {
            let (name, file) = (function.name, path.display());
            assert!(!function.owes(), "{name} in {file} owes its contract");
            all += 1;
            exported += usize::from(function.is_exported);
        }
    }
    assert_eq!(of_the_system, OF_THE_SYSTEM.len());
    assert!(
        all > 180 && exported >= 24,
        "{all} public functions and {exported} exported ones were found"
    );
}

/// The lines of a function's head as one, however its parameters are broken into lines.
fn joined(head: &[&str]) -> String {
    let words: Vec<&str> = head
        .iter()
        .flat_map(|line| line.split_whitespace())
        .collect();
    words
        .join(" ")
        .replace("( ", "(")
        .replace(", )", ")")
        .replace(",)", ")")
}

/// What C calls promises what the library's function of the same name does, word for word.
#[test]
fn the_exported_functions_have_the_clauses_of_the_library() {
    let crates = Path::new(env!("CARGO_MANIFEST_DIR")).join("../crates");
    let mut compared = 0;
    for exported in sources(&crates.join("cahermisk_c/src")) {
        let file = exported.file_name().expect("a source's name");
        let library = crates.join("cahermisk/src").join(file);
        let [exported, library] = [exported, library].map(|path| {
            fs::read_to_string(&path).unwrap_or_else(|e| panic!("{}: {e}", path.display()))
        });
        let known = functions(&library);
        for function in functions(&exported) {
            let words = joined(&function.head).replace("pub extern \"C\" fn", "pub fn");
            let same = known.iter().any(|other| joined(&other.head) == words);
            assert!(
                same,
                "{} has other clauses than the library's",
                function.name
            );
            compared += 1;
        }
    }
    assert!(
        compared >= 24,
        "{compared} exported functions were compared"
    );
}
