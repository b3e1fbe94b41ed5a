//! What docs/FORMS.md and docs/SHAMS.md name is there: forms in the code, theorems in the promises, must-fail edits.
//! And docs/scan.1 has the program's options.

use std::fs;
use std::path::{Path, PathBuf};

/// The top of the repository.
fn top() -> PathBuf {
    Path::new(env!("CARGO_MANIFEST_DIR")).join("..")
}

fn text_of(path: &str) -> String {
    fs::read_to_string(top().join(path)).unwrap_or_else(|error| panic!("{path}: {error}"))
}

/// The cells of every table row of a document, without the rows that head a table.
fn rows(document: &str) -> Vec<Vec<String>> {
    let text = text_of(document);
    let lines: Vec<&str> = text.lines().collect();
    let is_row = |line: &str| line.starts_with('|') && !line.starts_with("|---");
    let heads_a_table = |i: usize| {
        lines
            .get(i + 1)
            .is_some_and(|next| next.starts_with("|---"))
    };
    (0..lines.len())
        .filter(|&i| is_row(lines[i]) && !heads_a_table(i))
        .map(|i| cells(lines[i]))
        .collect()
}

fn cells(row: &str) -> Vec<String> {
    row.trim_matches('|')
        .split(" | ")
        .map(|cell| cell.trim().trim_matches('`').to_owned())
        .collect()
}

/// The text of an item such as `fn run_at` or `impl Unsigned`, up to the line that closes it.
fn item_of<'a>(text: &'a str, item: &str) -> Option<&'a str> {
    let opens = |line: &str| {
        let rest = line.trim_start_matches("pub ").strip_prefix(item);
        rest.is_some_and(|rest| !rest.starts_with(|c: char| c.is_alphanumeric() || c == '_'))
    };
    let mut at = 0;
    for line in text.split_inclusive('\n') {
        if opens(line) {
            let end = text[at..].find("\n}")?;
            return Some(&text[at..at + end]);
        }
        at += line.len();
    }
    None
}

#[test]
fn an_item_ends_where_it_is_closed() {
    let text = "fn at(\n    n: u8,\n) {\n    one\n}\n\npub fn a<'a>() {\n    two\n}\n";
    assert_eq!(item_of(text, "fn a"), Some("pub fn a<'a>() {\n    two"));
    assert_eq!(
        item_of(text, "fn at"),
        Some("fn at(\n    n: u8,\n) {\n    one")
    );
    assert_eq!(item_of(text, "fn b"), None);
}

#[test]
fn each_form_stands_where_it_is_said_to() {
    let rows = rows("docs/FORMS.md");
    let forms: Vec<_> = rows.iter().filter(|row| row.len() != 2).collect();
    assert!(forms.len() > 30, "only {} forms were found", forms.len());
    for row in forms {
        let [file, item, holds] = &row[..] else {
            panic!("a row of docs/FORMS.md has neither two cells nor three: {row:?}");
        };
        let text = text_of(file);
        let item_text = item_of(&text, item).unwrap_or_else(|| panic!("{file} has no `{item}`"));
        assert!(
            item_text.contains(holds.as_str()),
            "{file}, `{item}` does not hold `{holds}`"
        );
    }
}

/// The source files of the crates, by their paths from the top, in order.
fn sources() -> Vec<String> {
    let folders = fs::read_dir(top().join("crates")).expect("the crates");
    let mut paths = Vec::new();
    for folder in folders {
        let source = folder.expect("a crate").path().join("src");
        for file in fs::read_dir(&source).expect("its source") {
            let path = file.expect("a file").path();
            let path = path.strip_prefix(top()).expect("a path below the top");
            paths.push(path.to_str().expect("a plain name").to_owned());
        }
    }
    paths.sort();
    paths
}

/// Whether a line calls something, and is neither its definition nor a comment.
fn calls(line: &str, call: &str) -> bool {
    let code = line.split("//").next().unwrap_or_default();
    code.match_indices(call).any(|(at, _)| {
        let before = &code[..at];
        !before.ends_with(|c: char| c.is_alphanumeric() || c == '_') && !before.ends_with("fn ")
    })
}

#[test]
fn a_call_is_told_from_what_looks_like_one() {
    assert!(calls("    let a = at(1);", "at("));
    assert!(calls("    u64::at(1)", "at("));
    assert!(!calls("pub fn at(n: u8) {", "at("));
    assert!(!calls("    flat(1); // at(1)", "at("));
}

#[test]
fn no_other_path_leads_past_a_form() {
    let rows = rows("docs/FORMS.md");
    let paths: Vec<_> = rows.iter().filter(|row| row.len() == 2).collect();
    assert!(paths.len() > 5, "only {} calls were found", paths.len());
    for row in paths {
        let has = |path: &String| text_of(path).lines().any(|line| calls(line, &row[0]));
        let files: Vec<String> = sources().into_iter().filter(has).collect();
        assert_eq!(files.join(", "), row[1], "the files that call `{}`", row[0]);
    }
}

/// Whether a file of the promises states a theorem, a definition or a record of that name.
fn states(text: &str, name: &str) -> bool {
    text.lines().map(str::trim_start).any(|line| {
        let line = line.trim_start_matches("abbrev ");
        let named = line
            .strip_prefix("pub record ")
            .or(line.strip_prefix("pub "));
        named.is_some_and(|rest| rest.split_whitespace().next() == Some(name))
    })
}

#[test]
fn each_sham_has_its_theorem_and_its_edits() {
    let (mut theorems, mut edits) = (0, 0);
    for row in rows("docs/SHAMS.md") {
        if let [_, theorem, file] = &row[..] {
            // A theorem that rests on one which an edit makes false stands in proofs/, in the file of the same name.
            let states_it = |folder: &&str| {
                let path = top().join("crates/promises").join(folder).join(file);
                fs::read_to_string(path).is_ok_and(|text| states(&text, theorem))
            };
            let found = ["specs", "proofs"].iter().any(|folder| states_it(folder));
            assert!(found, "{file} of the promises does not state `{theorem}`");
            theorems += 1;
            continue;
        }
        for edit in row[1..].iter().flat_map(|cell| cell.split(", ")) {
            let (name, label) = edit.split_once('/').expect("an edit is CRATE/NAME");
            let path = format!("crates/{name}/must-fail/{label}.edit");
            assert!(text_of(&path).contains("\nnew: "), "{path} changes nothing");
            edits += 1;
        }
    }
    assert!(
        theorems > 8 && edits > 24,
        "{theorems} theorems and {edits} edits were found"
    );
}

/// The options that head a paragraph of the man page.
fn man_page_options(page: &str) -> Vec<String> {
    let heads = page.split("\n.TP\n").skip(1);
    let heads = heads.filter_map(|part| part.lines().next());
    let words = heads.flat_map(|head| head.split_whitespace());
    let plain = words.map(|word| word.replace("\\-", "-"));
    plain.filter(|word| word.starts_with('-')).collect()
}

/// The options of the help, which the first of the tries prints.
fn help_options(printed: &str) -> Vec<String> {
    let help = printed.lines().take_while(|line| !line.is_empty());
    let lines = help.filter(|line| line.starts_with("  -"));
    let names = lines.filter_map(|line| line.split("  ").find(|part| !part.is_empty()));
    let names = names.flat_map(|names| names.split(", "));
    let first = names.filter_map(|name| name.split(' ').next());
    first.map(str::to_owned).collect()
}

#[test]
fn the_man_page_has_the_options_of_the_help() {
    let options = man_page_options(&text_of("docs/scan.1"));
    let of_help = help_options(&text_of("data/tries/printed.txt"));
    assert_eq!(options, of_help, "docs/scan.1 and what scan prints");
    assert!(of_help.len() > 4, "only {of_help:?} were found");
}
