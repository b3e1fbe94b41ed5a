//! The data pages of a column, made of page files.

use std::fs;

use cahermisk::{Refusal, MAX_ENTRIES};

use crate::parquet::ending::counted;

/// A data page: its rows, and the bytes of their entries as Parquet has them.
pub struct Page {
    pub rows: usize,
    pub bytes: Vec<u8>,
}

/// The pages of a column, each as Parquet has it.
pub fn pages(
    files: &[String],
    entries: usize,
    page: impl Fn(Vec<u8>, usize) -> Result<Vec<u8>, Refusal>,
) -> Result<Vec<Page>, String> {
    let needed = entries.div_ceil(MAX_ENTRIES);
    if files.len() != needed {
        let (needed, named) = (counted(needed, "page", "pages"), files.len());
        return Err(format!("for {entries} entries name {needed}, not {named}"));
    }
    let made = files.iter().zip(rows_of(entries)).map(|(file, rows)| {
        let bytes = page(read(file)?, rows).map_err(|refusal| told(file, refusal))?;
        Ok(Page { rows, bytes })
    });
    made.collect()
}

/// The rows of each page: as many as a page may have, and in the last one what is left.
pub fn rows_of(entries: usize) -> impl Iterator<Item = usize> {
    (0..entries)
        .step_by(MAX_ENTRIES)
        .map(move |first| MAX_ENTRIES.min(entries - first))
}

/// Booleans have the length of their stream before it, in four bytes.
pub fn with_length(stream: Vec<u8>) -> Vec<u8> {
    [(stream.len() as u32).to_le_bytes().to_vec(), stream].concat()
}

pub fn read(file: &str) -> Result<Vec<u8>, String> {
    fs::read(file).map_err(|error| format!("{file}: {error}"))
}

/// What the library says of a file.
pub fn told(file: &str, refusal: Refusal) -> String {
    format!("{file} is refused with {refusal}")
}
