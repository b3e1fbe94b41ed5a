//! The pages that docs/PARQUET.md names as refused are rows of data/vectors/others, with the code that it says.

use crate::places::{bytes, top};

fn text_of(path: &str) -> String {
    String::from_utf8(bytes(&top(path))).expect("a text")
}

/// The codes of the rows below a comment that names a page.
fn codes<'a>(rows: &'a str, page: &str) -> Vec<&'a str> {
    let from = rows
        .lines()
        .skip_while(|line| !(line.starts_with('#') && line.contains(page)));
    let below = from.skip(1).take_while(|line| !line.starts_with('#'));
    below
        .filter_map(|row| row.split("-> code ").nth(1)?.split(' ').next())
        .collect()
}

#[test]
fn each_refused_page_is_a_row() {
    let document = text_of("docs/PARQUET.md");
    let section = document
        .split("\n## Pages that are refused\n")
        .nth(1)
        .expect("the section");
    let table = section.lines().filter(|line| line.contains(".txt: `"));
    let mut pages = 0;
    for row in table {
        let cells: Vec<&str> = row.trim_matches('|').split(" | ").map(str::trim).collect();
        let [_, _, code, cited] = cells[..] else {
            panic!("not four cells: {row}");
        };
        for (file, names) in cited.split("; ").filter_map(|part| part.split_once(": ")) {
            let rows = text_of(&format!("data/vectors/others/{file}"));
            for name in names.split(", ").map(|name| name.trim_matches('`')) {
                assert!(
                    codes(&rows, name).contains(&code),
                    "{file} has no {code} of {name}"
                );
                pages += 1;
            }
        }
    }
    assert!(pages >= 5, "only {pages} pages are named");
}
