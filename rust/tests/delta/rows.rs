//! The rows of data/vectors/delta.txt that no other layout of signed entries has.

use crate::reader::delta::{Delta, Pack};
use crate::signed::vectors::malformed;
use crate::support::calls::Calls;
use crate::support::row::{decimal, hexadecimal, Row};
use crate::support::vectors::Given;

/// Makes the call of a row that packs.
pub fn pack(calls: &mut Calls, row: &mut Row, line: &str) -> Result<(), String> {
    let entries = row.list("entries", decimal)?;
    let given = Given::read(row, "page", hexadecimal)?;
    given.check(line, |page| {
        calls.pack_delta(&Pack {
            entries: &entries,
            page,
        })
    });
    Ok(())
}

/// Rows that are not of delta pages, or not of this form.
#[test]
fn malformed_lines() {
    malformed::<Delta>(
        "unpack n 1 page 80 01 04 01 09 -> code 0 number 1 entries -5 .",
        &[
            ("unpack", "next"),
            ("unpack n 1", "unpack width 32 n 1"),
            ("n 1 ", ""),
            ("-5", "+5"),
            ("-5", "4294967291"),
            ("-5", "-2147483649"),
            ("80 01", "8001"),
        ],
    );
}
