//! The page files that cut_parquet writes, and the command that it names for them.

use std::fs;
use std::path::Path;

use crate::cut_parquet::answer;
use crate::made::Made;
use crate::parquet::format::{BOOLEAN, INT32, PLAIN, RLE_DICTIONARY};
use crate::places::{bytes, folder, text};

/// What is printed for a column c that is cut into a folder, there called `pages`.
fn said(made: &Made, folder: &Path) -> Result<String, String> {
    let path = text(&folder.join("c.parquet"));
    fs::write(&path, made.file()).expect("a file");
    let pages = text(&folder.join("pages"));
    let said = answer(&[path, "c".to_owned(), pages.clone()])?;
    Ok(said.replace(&pages, "pages"))
}

#[test]
fn full_pages_are_asked_by_one_command() {
    let page = [0xFF; 16_384 / 8];
    let made = Made::of(BOOLEAN, PLAIN, &[(16_384, &page), (5, &[0b10101])]);
    let folder = folder("full");
    let lines = "\
pages/c-001.horizontal: 16384 entries in 2048 bytes
pages/c-002.horizontal: 5 entries in 1 byte
16389 entries in 2 pages.
Ask for instance:
  scan horizontal --width 1 --entries 16389 pages/c-???.horizontal equal 1
";
    assert_eq!(said(&made, &folder).as_deref(), Ok(lines));
    assert_eq!(bytes(&text(&folder.join("pages/c-001.horizontal"))), page);
    assert_eq!(
        bytes(&text(&folder.join("pages/c-002.horizontal"))),
        [0b10101]
    );
}

#[test]
fn other_pages_are_asked_one_by_one() {
    let pages: [(usize, &[u8]); 2] = [(3, &[0, 6]), (2, &[0, 4])];
    let made = Made::of(INT32, RLE_DICTIONARY, &pages).with_dictionary(&[7]);
    let folder = folder("not-full");
    let lines = "\
pages/c.dict: 1 value
pages/c-001.idx: 3 entries in 2 bytes
pages/c-002.idx: 2 entries in 2 bytes
5 entries in 2 pages.
scan takes each page but the last as one of 16384 entries, which these are not.
Write the file with such pages, or ask page by page, for instance:
  scan dictionary --last 3 pages/c.dict pages/c-001.idx at-least 0
  scan dictionary --last 2 pages/c.dict pages/c-002.idx at-least 0
";
    assert_eq!(said(&made, &folder).as_deref(), Ok(lines));
    assert_eq!(bytes(&text(&folder.join("pages/c.dict"))), [7, 0, 0, 0]);
}

#[test]
fn plain_numbers_are_said_to_be_unsigned() {
    let made = Made::of(INT32, PLAIN, &[(1, &[0xFF; 4])]);
    let said = said(&made, &folder("unsigned")).expect("a cut");
    assert!(
        said.contains("compared as unsigned numbers: -1 is 4294967295."),
        "{said}"
    );
    assert!(
        said.contains("scan horizontal --width 32 --entries 1 "),
        "{said}"
    );
}

/// A second cut with fewer pages would leave one of the first for the shell to find.
#[test]
fn pages_of_an_earlier_cut_are_not_mixed_in() {
    let folder = folder("earlier");
    fs::create_dir_all(folder.join("pages")).expect("a folder");
    for harmless in ["c-1.delta", "c-002.runs", "d-002.delta", "c-001.delta"] {
        fs::write(folder.join("pages").join(harmless), "").expect("a file");
    }
    said(&Made::delta(), &folder).expect("a cut");
    let earlier = folder.join("pages/c-002.delta");
    fs::write(&earlier, "").expect("a file");
    let refused = said(&Made::delta(), &folder).expect_err("a page of an earlier cut");
    let told = "c-002.delta is there already and is none of these pages: remove it, or name another folder";
    assert!(refused.ends_with(told), "{refused}");
}

#[test]
fn names_that_a_shell_would_take_apart() {
    let folder = folder("it's here");
    let path = text(&folder.join("c.parquet"));
    fs::write(&path, Made::delta().file()).expect("a file");
    let said = answer(&[path, "c".to_owned(), text(&folder)]).expect("a cut");
    let quoted = text(&folder).replace('\'', r"'\''");
    let command = format!("scan delta --entries 3 '{quoted}/c-'???.delta at-least 0\n");
    assert!(said.ends_with(&command), "{said}");
}

#[test]
fn words_that_are_not_understood() {
    let error = answer(&[]).expect_err("no words");
    assert!(error.contains("usage: cut_parquet FILE"), "{error}");
    assert!(answer(&["--help".to_owned()]).is_ok_and(|help| help.starts_with("usage: ")));
    let missing = answer(&["no/such.parquet".to_owned()]).expect_err("no file");
    assert!(missing.starts_with("no/such.parquet: "), "{missing}");
    let folder = folder("no-column");
    let path = text(&folder.join("c.parquet"));
    fs::write(&path, Made::delta().file()).expect("a file");
    let words = [path.clone(), "d".to_owned(), text(&folder)];
    let told = format!("{path}: it has no column d; its columns are c");
    assert_eq!(answer(&words), Err(told));
}
