//! The rows of data/vectors/dictionary.txt.

use crate::reader::dictionary::Dictionary;
use crate::signed::vectors::malformed;

/// Rows that are not of dictionary columns, or not of this form.
#[test]
fn malformed_lines() {
    malformed::<Dictionary>(
        "unpack n 2 dict FB FF FF FF page 00 04 -> code 0 number 2 entries -5 -5 .",
        &[
            ("unpack", "pack"),
            ("unpack", "next"),
            ("unpack n 2", "unpack width 0 n 2"),
            ("n 2 ", ""),
            ("dict FB FF FF FF ", ""),
            ("dict", "Dict"),
            ("dict FB FF FF FF", "dict -5"),
            ("page 00 04 ", ""),
            ("page 00 04", "page 00 04 page 00 04"),
            ("FF FF", "FFFF"),
        ],
    );
}
