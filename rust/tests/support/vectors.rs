//! The files of data/vectors, and what a row of them says a call gives.

use std::fmt::Debug;
use std::{fs, io};

use super::calls::{say, Calls};
use super::lent::{Filled, FILLINGS};
use super::row::Row;
use crate::layouts::layout::Layout;
use crate::reader::delta::Delta;
use crate::reader::dictionary::Dictionary;
use crate::reader::horizontal::Horizontal;
use crate::reader::runs::Runs;
use crate::reader::vertical::Vertical;
use crate::reader::Outcome;
use crate::signed::layout::Signed;

/// What a call gives: its answer, and what the place lent for writing holds, or keeps where it is `None`.
pub struct Given<T> {
    code: u32,
    number: u32,
    held: Vec<Option<T>>,
}

impl<T: Filled + Debug> Given<T> {
    pub fn read(
        row: &mut Row,
        label: &str,
        element: fn(&str) -> Result<T, String>,
    ) -> Result<Given<T>, String> {
        row.arrow()?;
        let given = Given {
            code: row.number("code")?,
            number: row.number("number")?,
            held: row.list_with_dots(label, element)?,
        };
        row.end()?;
        Ok(given)
    }

    /// Makes the call with every filling of the place that is lent: as long as it is in the end.
    pub fn check(&self, line: &str, mut call: impl FnMut(&[T]) -> Outcome<T>) {
        for filling in FILLINGS {
            let kept = T::filled(filling);
            let held = self.held.iter().map(|element| element.unwrap_or(kept));
            let want = Outcome {
                code: self.code,
                number: self.number,
                held: held.collect(),
            };
            let lent = vec![kept; self.held.len()];
            assert_eq!(call(&lent), want, "{line}");
        }
    }
}

/// The file of a layout in data/vectors, and those of other makers' pages that are named after it:
/// others/NAME.txt and others/NAME-WORDS.txt.
fn files_of(name: &str) -> Vec<String> {
    let mut files = vec![format!("{name}.txt")];
    let of_the_layout = |file: &String| {
        let rest = file.strip_prefix(name).unwrap_or_default();
        rest == ".txt" || rest.starts_with('-')
    };
    let in_others = |file: String| format!("others/{file}");
    files.extend(others().into_iter().filter(of_the_layout).map(in_others));
    files
}

fn path_of(file: &str) -> String {
    format!("{}/../data/vectors/{file}", env!("CARGO_MANIFEST_DIR"))
}

/// The files of other makers' pages, in order.
fn others() -> Vec<String> {
    let folder = fs::read_dir(path_of("others")).expect("data/vectors/others");
    let name = |file: io::Result<fs::DirEntry>| file.expect("a file").file_name().into_string();
    let mut files: Vec<String> = folder
        .map(|file| name(file).expect("a plain name"))
        .collect();
    files.sort();
    files
}

/// Makes the call of every row of a layout's files.
pub fn call_every_row(
    mut calls: Calls,
    name: &str,
    call: fn(&mut Calls, &str) -> Result<(), String>,
) {
    for file in files_of(name) {
        let rows = call_rows(&mut calls, &file, call);
        assert!(rows > 0, "data/vectors/{file} has no row");
        say(&format!("data/vectors/{file}: {rows} rows agree"));
    }
    calls.finish();
}

/// Makes the calls of a file and counts its rows. Lines that begin with # and empty lines are for the reader;
/// each other line is a row.
fn call_rows(
    calls: &mut Calls,
    file: &str,
    call: fn(&mut Calls, &str) -> Result<(), String>,
) -> usize {
    let read = fs::read_to_string(path_of(file));
    let text = read.unwrap_or_else(|error| panic!("data/vectors/{file}: {error}"));
    let is_row = |(_, line): &(usize, &str)| !line.is_empty() && !line.starts_with('#');
    let mut rows = 0;
    for (at, line) in (1..).zip(text.lines()).filter(is_row) {
        if let Err(fault) = call(calls, line) {
            panic!("data/vectors/{file}, line {at}: {fault}");
        }
        rows += 1;
    }
    rows
}

/// Each file of other makers' pages is one of a layout's, so that none lies there unread.
#[test]
fn every_file_of_other_makers_has_its_layout() {
    let bare = [Horizontal::NAME, Vertical::NAME, Runs::NAME];
    let signed = [Delta::NAME, Dictionary::NAME];
    let of_layouts = bare.into_iter().chain(signed).flat_map(files_of);
    let mut read: Vec<_> = of_layouts
        .filter_map(|file| Some(file.strip_prefix("others/")?.to_owned()))
        .collect();
    read.sort();
    assert_eq!(read, others());
    assert!(!read.is_empty());
}
