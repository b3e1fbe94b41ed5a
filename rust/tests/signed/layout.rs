//! A layout of signed entries as its tests know it.

use crate::raw::Answer;
use crate::reader::signed::Column;
use crate::support::calls::Calls;
use crate::support::random::Random;
use crate::support::row::Row;

/// A place lent for reading, and its length.
pub type Place = (*const u8, usize);

/// The rules of a layout, the library's functions for it, and columns to call them with.
pub trait Signed: Column + Sized {
    const NAME: &'static str;

    /// Counts of entries around which something in a column begins or ends, ascending.
    const COUNTS: &'static [usize];

    /// A column of these entries.
    fn of(entries: &[i32]) -> Self;

    /// A column of any n entries, whose packed numbers are of about this width, as any writer might make it.
    fn any(width: u32, n: usize, random: &mut Random) -> Self;

    /// What is lent for reading, the page last.
    fn inputs(&self) -> Vec<&[u8]>;

    /// The column of other inputs, as many.
    fn of_inputs(inputs: &[&[u8]]) -> Self;

    /// The same column with another page.
    fn with_page(&self, page: &[u8]) -> Self {
        let mut inputs = self.inputs();
        inputs.pop();
        inputs.push(page);
        Self::of_inputs(&inputs)
    }

    /// The library's scan.
    ///
    /// # Safety
    ///
    /// The places are valid for their lengths, the inputs are as many as those of a column, and the bitmap overlaps
    /// none of them.
    unsafe fn scan(
        inputs: &[Place],
        n: usize,
        op: u32,
        a: i64,
        b: i64,
        bitmap: *mut u8,
        room: usize,
    ) -> Answer;

    /// The library's unpack.
    ///
    /// # Safety
    ///
    /// As of `scan`, of `entries`, which is aligned.
    unsafe fn unpack(inputs: &[Place], n: usize, entries: *mut i32, room: usize) -> Answer;

    /// The column in a row of data/vectors.
    fn of_row(row: &mut Row) -> Result<Self, String>;

    /// Makes the call of a row that is none of a scan and an unpack.
    fn other_call(
        _calls: &mut Calls,
        name: &str,
        _row: &mut Row,
        _line: &str,
    ) -> Result<(), String> {
        Err(format!("'{name}' is no function"))
    }
}

/// The column's page.
pub fn page<C: Signed>(column: &C) -> &[u8] {
    let inputs = column.inputs();
    inputs.last().copied().expect("every column has a page")
}

/// The entries of a good column.
pub fn entries<C: Signed>(column: &C, n: usize) -> Vec<i32> {
    column.read(n).expect("a good column")
}
