//! The columns of the sample day as page files, by the library's own writers.

use cahermisk::{delta, runs, vertical, Refusal, MAX_ENTRIES};

use crate::columns::{busy, calls, landing, level, DECKS};

/// Bits of a landing's index, of a second's calls, and of a count of busy lifts.
const INDEX_WIDTH: u32 = 2;
const CALLS_WIDTH: u32 = 3;
const BUSY_WIDTH: u32 = 4;

type File = (String, Vec<u8>);

/// All files of the day: their names and their bytes.
pub fn files() -> Result<Vec<File>, Refusal> {
    let mut files = vec![("landing.dict".to_owned(), dictionary())];
    files.extend(paged("level", "delta", &level(), delta::pack_to_vec)?);
    files.extend(paged("landing", "idx", &landing(), indexes)?);
    files.extend(paged("calls", "runs", &calls(), |page| {
        runs::pack_to_vec(page, CALLS_WIDTH)
    })?);
    files.extend(paged("busy", "planes", &busy(), planes)?);
    Ok(files)
}

/// A column cut into pages of as many entries as a page may have.
fn paged<T>(
    column: &str,
    kind: &str,
    entries: &[T],
    pack: impl Fn(&[T]) -> Result<Vec<u8>, Refusal>,
) -> Result<Vec<File>, Refusal> {
    (1..)
        .zip(entries.chunks(MAX_ENTRIES))
        .map(|(number, page)| Ok((format!("{column}-{number}.{kind}"), pack(page)?)))
        .collect()
}

/// 4-byte signed numbers, low byte first, ascending.
fn dictionary() -> Vec<u8> {
    DECKS.iter().flat_map(|deck| deck.to_le_bytes()).collect()
}

/// The width byte, and a run stream.
fn indexes(page: &[u32]) -> Result<Vec<u8>, Refusal> {
    let mut bytes = vec![INDEX_WIDTH as u8];
    bytes.extend(runs::pack_to_vec(page, INDEX_WIDTH)?);
    Ok(bytes)
}

/// Words as a file has them: low byte first.
fn planes(page: &[u32]) -> Result<Vec<u8>, Refusal> {
    let words = vertical::pack_to_vec(page, BUSY_WIDTH)?;
    Ok(words.iter().flat_map(|word| word.to_le_bytes()).collect())
}
