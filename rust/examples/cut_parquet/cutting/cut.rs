//! A column as pages of a layout, or the sentence that says why it is none.

use std::io::{Read, Seek};

use cahermisk::MAX_ENTRIES;

use super::column::{Chunk, Column};
use super::file::File;
use super::page_file::{PageFile, AS_DELTA};
use super::pages::{Page, Pages};
use crate::parquet::format::{name, CODECS, ENCODINGS, REPETITIONS, REQUIRED, TYPES, UNCOMPRESSED};
use crate::parquet::layout::Layout;

/// A column for scan: its layout, its dictionary if it has one, and its pages in order.
pub struct Cut {
    pub layout: Layout,
    pub dictionary: Option<Vec<u8>>,
    pub pages: Vec<PageFile>,
}

impl Cut {
    /// The entries of the whole column, if each page but the last is full, as scan takes it.
    pub fn entries_as_scan_counts(&self) -> Option<usize> {
        let (last, full) = self.pages.split_last()?;
        let all_full = full.iter().all(|page| page.entries == MAX_ENTRIES);
        all_full.then_some(full.len() * MAX_ENTRIES + last.entries)
    }
}

pub fn cut<R: Read + Seek>(file: &mut File<R>, column: &Column) -> Result<Cut, String> {
    if column.repetition != REQUIRED {
        let kind = name(&REPETITIONS, column.repetition);
        return Err(format!(
            "it is {kind}: write it as a required column, which has an entry in every row"
        ));
    }
    let (pages, dictionaries) = all_pages(file, column)?;
    let layout = layout_of(column.kind, &pages)?;
    sizes(&pages)?;
    let dictionary = match layout {
        Layout::Dictionary => Some(the_dictionary(dictionaries)?),
        _ => None,
    };
    let values = dictionary.as_deref().unwrap_or_default();
    let files = pages
        .into_iter()
        .map(|page| PageFile::of(layout, values, page));
    Ok(Cut {
        layout,
        pages: files.collect::<Result<_, _>>()?,
        dictionary,
    })
}

type Dictionaries = Vec<Option<Vec<u8>>>;

/// The data pages of all row groups that have rows, and the dictionary of each, if it has one.
fn all_pages<R: Read + Seek>(
    file: &mut File<R>,
    column: &Column,
) -> Result<(Vec<Page>, Dictionaries), String> {
    let (mut pages, mut dictionaries) = (Vec::new(), Vec::new());
    for chunk in &column.chunks {
        let chunk = chunk.as_ref()?;
        if chunk.rows > 0 {
            let read = chunk_pages(file, chunk)?;
            pages.extend(read.data);
            dictionaries.push(read.dictionary);
        }
    }
    Ok((pages, dictionaries))
}

fn chunk_pages<R: Read + Seek>(file: &mut File<R>, chunk: &Chunk) -> Result<Pages, String> {
    if chunk.codec != UNCOMPRESSED {
        let codec = name(&CODECS, chunk.codec);
        return Err(format!(
            "it is compressed with {codec}: write it without compression"
        ));
    }
    let bytes = file.part(chunk.at, chunk.length)?;
    let bytes = bytes.ok_or("the file ends before its pages do")?;
    let pages = Pages::of(&bytes)?;
    let rows = pages
        .data
        .iter()
        .try_fold(0usize, |rows, page| rows.checked_add(page.rows));
    match rows {
        Some(rows) if rows == chunk.rows => Ok(pages),
        _ => Err("its pages have not as many rows as the footer says".to_owned()),
    }
}

/// The one layout of all pages.
fn layout_of(kind: i64, pages: &[Page]) -> Result<Layout, String> {
    let mut encodings: Vec<i64> = pages.iter().map(|page| page.encoding).collect();
    encodings.sort();
    encodings.dedup();
    let names: Vec<String> = encodings.iter().map(|&e| name(&ENCODINGS, e)).collect();
    match encodings[..] {
        [] => Err("it has no rows".to_owned()),
        [encoding] => Layout::of(kind, encoding)
            .ok_or_else(|| format!("no layout is {} in {}", name(&TYPES, kind), names[0])),
        _ => Err(format!(
            "its pages are in {}: write all in one encoding",
            names.join(" and ")
        )),
    }
}

fn sizes(pages: &[Page]) -> Result<(), String> {
    let large = pages.iter().position(|page| page.rows > MAX_ENTRIES);
    large.map_or(Ok(()), |i| {
        let (number, rows) = (i + 1, pages[i].rows);
        Err(format!(
            "its page {number} has {rows} rows: write pages of at most {MAX_ENTRIES}"
        ))
    })
}

/// The dictionary of all row groups.
fn the_dictionary(dictionaries: Dictionaries) -> Result<Vec<u8>, String> {
    let groups = dictionaries.len();
    let mut dictionaries = dictionaries.into_iter();
    let first = dictionaries
        .next()
        .flatten()
        .ok_or("its dictionary is not there")?;
    if dictionaries.any(|other| other.as_ref() != Some(&first)) {
        return Err(format!(
            "its {groups} row groups have not the same dictionary: {AS_DELTA}, or in one row group"
        ));
    }
    Ok(first)
}
