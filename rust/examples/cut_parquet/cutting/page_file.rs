//! A data page as a file for scan.

use cahermisk::{Refusal, MAX_DICTIONARY_BYTES};

use super::pages::Page;
use crate::parquet::layout::Layout;

/// What always helps where a dictionary does not fit.
pub const AS_DELTA: &str = "write the column as DELTA_BINARY_PACKED";

/// A page, and what the library says of it.
pub struct PageFile {
    pub entries: usize,
    pub bytes: Vec<u8>,
    pub judged: Result<(), Refusal>,
}

impl PageFile {
    pub fn of(layout: Layout, values: &[u8], page: Page) -> Result<PageFile, String> {
        let bytes = match layout {
            Layout::Runs(_) => without_length(page.entries)?,
            _ => page.entries,
        };
        let judged = layout.judge(values, &bytes, page.rows);
        match judged {
            Err(Refusal::MalformedDictionary) => Err(of_dictionary(values)),
            _ => Ok(PageFile {
                entries: page.rows,
                bytes,
                judged,
            }),
        }
    }
}

/// Why the library refuses a dictionary.
fn of_dictionary(values: &[u8]) -> String {
    let code = Refusal::MalformedDictionary.code();
    let what = match values.len() {
        bytes if bytes > MAX_DICTIONARY_BYTES => format!(
            "its dictionary has more than {} values",
            MAX_DICTIONARY_BYTES / 4
        ),
        _ => "the values of its dictionary do not ascend".to_owned(),
    };
    format!("{what}, which is code {code}: {AS_DELTA}")
}

/// The run stream behind the four bytes that say how long it is.
fn without_length(entries: Vec<u8>) -> Result<Vec<u8>, String> {
    let (length, stream) = entries
        .split_first_chunk()
        .ok_or("a page has no length bytes")?;
    if u32::from_le_bytes(*length) as usize != stream.len() {
        return Err("a page is not as long as its four length bytes say".to_owned());
    }
    Ok(stream.to_vec())
}
