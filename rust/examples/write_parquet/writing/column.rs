//! A column of the file, made of page files.

use cahermisk::{horizontal, runs, MAX_DICTIONARY_BYTES, MAX_ENTRIES};

use super::pages::{pages, read, rows_of, told, with_length, Page};
use super::question::Asked;
use crate::parquet::ending::counted;
use crate::parquet::format::{name, ENCODINGS, TYPES};
use crate::parquet::layout::Layout;

pub struct Column {
    pub name: String,
    pub kind: i64,
    pub encoding: i64,
    pub dictionary: Option<Vec<u8>>,
    pub pages: Vec<Page>,
}

impl Column {
    pub fn read(asked: &Asked, entries: usize) -> Result<Column, String> {
        let made = match (asked.layout, asked.width) {
            ("delta", None) => plain(Layout::Delta, asked.files, entries),
            ("dictionary", None) => dictionary(asked.files, entries),
            ("runs", Some(1)) => plain(Layout::Runs(1), asked.files, entries),
            ("runs", Some(width)) => runs_as_indexes(width, asked.files, entries),
            ("horizontal", Some(width @ (1 | 32))) => {
                plain(Layout::Horizontal(width), asked.files, entries)
            }
            ("bitmap", None) => bitmap(asked.files, entries),
            ("planes", _) => Err("Parquet has no bit planes".to_owned()),
            _ => Err(
                "its layout is none that Parquet has; write_parquet --help names those".to_owned(),
            ),
        };
        let (layout, values, pages) =
            made.map_err(|why| format!("column {}: {why}", asked.name))?;
        let (kind, encoding) = layout.in_parquet().ok_or("no layout of Parquet")?;
        Ok(Column {
            name: asked.name.to_owned(),
            kind,
            encoding,
            dictionary: values,
            pages,
        })
    }

    /// What the column is, in a line.
    pub fn line(&self) -> String {
        let (kind, encoding) = (name(&TYPES, self.kind), name(&ENCODINGS, self.encoding));
        let pages = counted(self.pages.len(), "page", "pages");
        format!("{}: {kind} in {encoding}, {pages}\n", self.name)
    }
}

/// A layout, the dictionary's values if it has one, and the pages.
type Made = Result<(Layout, Option<Vec<u8>>, Vec<Page>), String>;

/// Pages that Parquet has as they are, but for the length before a stream of booleans.
fn plain(layout: Layout, files: &[String], entries: usize) -> Made {
    let pages = pages(files, entries, |bytes, n| {
        layout.judge(&[], &bytes, n)?;
        Ok(match layout {
            Layout::Runs(_) => with_length(bytes),
            _ => bytes,
        })
    })?;
    Ok((layout, None, pages))
}

fn dictionary(files: &[String], entries: usize) -> Made {
    let (first, files) = files.split_first().ok_or("its dictionary is not named")?;
    let values = read(first)?;
    indexes(values, files, entries, |bytes| bytes)
}

/// A stream is an index page without its width byte, of a dictionary in which each number is its own index.
fn runs_as_indexes(width: u32, files: &[String], entries: usize) -> Made {
    let most = (MAX_DICTIONARY_BYTES / 4).ilog2();
    if width > most {
        return Err(format!(
            "runs of {width} bits are more than the {most} of a dictionary's index"
        ));
    }
    let values = (0..1u32 << width).flat_map(u32::to_le_bytes).collect();
    indexes(values, files, entries, |stream| {
        [vec![width as u8], stream].concat()
    })
}

fn indexes(
    values: Vec<u8>,
    files: &[String],
    entries: usize,
    page: impl Fn(Vec<u8>) -> Vec<u8>,
) -> Made {
    let pages = pages(files, entries, |bytes, n| {
        let bytes = page(bytes);
        Layout::Dictionary.judge(&values, &bytes, n).map(|()| bytes)
    })?;
    Ok((Layout::Dictionary, Some(values), pages))
}

/// A bitmap of the whole column, as booleans in run streams.
fn bitmap(files: &[String], entries: usize) -> Made {
    let [file] = files else {
        return Err("a bitmap is one file".to_owned());
    };
    let bytes = read(file)?;
    if bytes.len() != entries.div_ceil(8) {
        let has = counted(bytes.len(), "byte", "bytes");
        return Err(format!(
            "{file} is no bitmap of {entries} entries: it has {has}"
        ));
    }
    let page = |(bytes, rows): (&[u8], usize)| {
        let bits =
            horizontal::unpack_to_vec(bytes, 1, rows).map_err(|refusal| told(file, refusal))?;
        let bytes =
            with_length(runs::pack_to_vec(&bits, 1).map_err(|refusal| told(file, refusal))?);
        Ok(Page { rows, bytes })
    };
    let parts = bytes.chunks(MAX_ENTRIES / 8).zip(rows_of(entries));
    let pages = parts.map(page).collect::<Result<_, String>>()?;
    Ok((Layout::Runs(1), None, pages))
}
