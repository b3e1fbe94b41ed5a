//! Which layout of the library is which type and encoding of Parquet.

use cahermisk::{delta, dictionary, horizontal, runs, Refusal};

use super::format::{
    BOOLEAN, DELTA_BINARY_PACKED, INT32, PLAIN, PLAIN_DICTIONARY, RLE, RLE_DICTIONARY,
};

/// A layout with the width that its pages do not say themselves.
#[derive(Clone, Copy, Debug, PartialEq)]
pub enum Layout {
    Delta,
    Dictionary,
    Runs(u32),
    Horizontal(u32),
}

/// Each layout that Parquet has, with its type and its encoding there.
const PARQUET: [(Layout, i64, i64); 5] = [
    (Layout::Delta, INT32, DELTA_BINARY_PACKED),
    (Layout::Dictionary, INT32, RLE_DICTIONARY),
    (Layout::Runs(1), BOOLEAN, RLE),
    (Layout::Horizontal(1), BOOLEAN, PLAIN),
    (Layout::Horizontal(32), INT32, PLAIN),
];

impl Layout {
    /// The layout of a type and an encoding. PLAIN_DICTIONARY is an older name of RLE_DICTIONARY.
    pub fn of(kind: i64, encoding: i64) -> Option<Layout> {
        let encoding = match encoding {
            PLAIN_DICTIONARY => RLE_DICTIONARY,
            other => other,
        };
        let is_it = |row: &&(Layout, i64, i64)| (row.1, row.2) == (kind, encoding);
        PARQUET.iter().find(is_it).map(|row| row.0)
    }

    /// Type and encoding of a layout.
    pub fn in_parquet(self) -> Option<(i64, i64)> {
        let row = PARQUET.iter().find(|row| row.0 == self)?;
        Some((row.1, row.2))
    }

    /// As the program scan names it.
    pub fn name(self) -> &'static str {
        match self {
            Layout::Delta => "delta",
            Layout::Dictionary => "dictionary",
            Layout::Runs(_) => "runs",
            Layout::Horizontal(_) => "horizontal",
        }
    }

    pub fn width(self) -> Option<u32> {
        match self {
            Layout::Runs(width) | Layout::Horizontal(width) => Some(width),
            Layout::Delta | Layout::Dictionary => None,
        }
    }

    /// Whether the library accepts a page of n entries; `values` are the dictionary's, if the layout has one.
    pub fn judge(self, values: &[u8], page: &[u8], n: usize) -> Result<(), Refusal> {
        match self {
            Layout::Delta => delta::unpack_to_vec(page, n).map(drop),
            Layout::Dictionary => dictionary::unpack_to_vec(values, page, n).map(drop),
            Layout::Runs(width) => runs::unpack_to_vec(page, width, n).map(drop),
            Layout::Horizontal(width) => horizontal::unpack_to_vec(page, width, n).map(drop),
        }
    }
}
