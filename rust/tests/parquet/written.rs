//! What write_parquet writes is cut to the same pages; and what it refuses to write.

use std::fs;
use std::io::Cursor;
use std::path::Path;

use cahermisk::{delta, horizontal, runs};

use crate::cut_parquet::cut_column;
use crate::places::{bytes, folder, text, words};
use crate::write_parquet::answer;

/// Asks for a file of one column c, whose page is `page` in the folder.
fn written(folder: &Path, layout: &str, page: &[u8], entries: usize) -> Result<Vec<u8>, String> {
    let out = text(&folder.join("c.parquet"));
    let file = text(&folder.join("page"));
    fs::write(&file, page).expect("a page");
    let command = format!("{out} --entries {entries} --column c {layout} {file}");
    answer(&words(&command)).map(|_| bytes(&out))
}

#[test]
fn each_layout_is_cut_to_the_same_page() {
    let folder = folder("layouts");
    let entries = [5, 9, 16_383, 0];
    let bits = [1, 0, 1, 1];
    let rows = [
        ("delta", delta::pack_to_vec(&[-7, 5, i32::MIN, 3])),
        (
            "horizontal:32",
            horizontal::pack_to_vec(&[0, 7, u32::MAX, 3], 32),
        ),
        ("horizontal:1", horizontal::pack_to_vec(&bits, 1)),
        ("runs:1", runs::pack_to_vec(&bits, 1)),
        ("runs:14", runs::pack_to_vec(&entries, 14)),
        ("runs:0", runs::pack_to_vec(&[0; 4], 0)),
    ];
    for (layout, page) in rows {
        let page = page.expect("four entries");
        let file = written(&folder, layout, &page, 4).expect("a file");
        let cut = cut_column(Cursor::new(file), "c").expect("a column");
        let [cut_page] = &cut.pages[..] else {
            panic!("{layout}: not one page");
        };
        assert_eq!((cut_page.entries, cut_page.judged), (4, Ok(())), "{layout}");
        // An index page has its width before the stream.
        let width_bytes = usize::from(cut.dictionary.is_some());
        assert_eq!(cut_page.bytes[width_bytes..], page, "{layout}");
    }
}

/// 7, 5, 3 as a delta page.
const DELTA: &[u8] = &[0x80, 0x01, 4, 3, 14, 3, 0, 0, 0, 0];

const NO_LAYOUT: &str = "its layout is none that Parquet has; write_parquet --help names those";

/// A layout, a page's bytes, the entries, and why it is not written: FILE is the page's.
const NOT_WRITTEN: [(&str, &[u8], usize, &str); 11] = [
    (
        "delta",
        &[],
        3,
        "FILE is refused with code 5: input ends too early",
    ),
    (
        "delta",
        DELTA,
        2,
        "FILE is refused with code 13: delta count is not n",
    ),
    (
        "delta",
        DELTA,
        16_385,
        "for 16385 entries name 2 pages, not 1",
    ),
    ("planes:4", DELTA, 3, "Parquet has no bit planes"),
    ("horizontal:7", DELTA, 3, NO_LAYOUT),
    ("runs", DELTA, 3, NO_LAYOUT),
    ("delta:3", DELTA, 3, NO_LAYOUT),
    (
        "runs:15",
        DELTA,
        3,
        "runs of 15 bits are more than the 14 of a dictionary's index",
    ),
    (
        "bitmap",
        &[1, 2],
        3,
        "FILE is no bitmap of 3 entries: it has 2 bytes",
    ),
    (
        "bitmap",
        &[0xFF],
        3,
        "FILE is refused with code 7: unused bits not 0",
    ),
    ("dictionary", &[1], 3, "for 3 entries name 1 page, not 0"),
];

#[test]
fn what_is_not_written() {
    let folder = folder("not-written");
    for (layout, page, entries, why) in NOT_WRITTEN {
        let refused = written(&folder, layout, page, entries).expect_err(layout);
        let why = why.replace("FILE", &text(&folder.join("page")));
        assert_eq!(refused, format!("column c: {why}"));
        assert!(
            !folder.join("c.parquet").exists(),
            "{layout}: a file was written"
        );
    }
}

/// The words of a command, and how its sentence begins.
const NOT_UNDERSTOOD: [(&str, &str); 9] = [
    (
        "",
        "name the file to write, and --entries with their number\n",
    ),
    (
        "o --column c delta p",
        "name the file to write, and --entries with their number\n",
    ),
    (
        "o --entries 0 --column c delta p",
        "the file's name is followed by --entries",
    ),
    (
        "o --rows 3 --column c delta p",
        "the file's name is followed by --entries",
    ),
    (
        "o --entries 3",
        "name a column: --column NAME LAYOUT FILE...\n",
    ),
    (
        "o --entries 3 --column c",
        "a column has a name, a layout and files\n",
    ),
    ("o --entries 3 --column c runs:x p", "x is no width\n"),
    (
        "o --entries 3 --column c delta p --column c delta p",
        "column c is named twice\n",
    ),
    (
        "o --entries 3 --column c delta no/such/page",
        "column c: no/such/page: ",
    ),
];

#[test]
fn words_that_are_not_understood() {
    for (command, told) in NOT_UNDERSTOOD {
        let error = answer(&words(command)).expect_err(command);
        assert!(error.starts_with(told), "{command}: {error}");
    }
    assert!(answer(&words("--help")).is_ok_and(|help| help.starts_with("usage: ")));
}

#[test]
fn a_page_is_not_written_over() {
    let folder = folder("own-page");
    let path = text(&folder.join("page"));
    fs::write(&path, DELTA).expect("a page");
    let command = format!("{path} --entries 3 --column c delta {path}");
    let told = format!("{path} is one of the pages: name another file to write");
    assert_eq!(answer(&words(&command)), Err(told));
    assert_eq!(bytes(&path), DELTA);
}
