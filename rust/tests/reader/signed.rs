//! The two calls that columns of signed entries share, and their codes in order. What a column holds, each layout
//! says itself.

use super::calls::{scanned, unpacked, within_limits};
use super::{satisfies, Outcome};

/// What a layout of signed entries says of its columns.
pub trait Column {
    /// The n entries of a column, or its first fault. n is within the limit.
    fn read(&self, n: usize) -> Result<Vec<i32>, u32>;
}

pub struct Scan<'a, C> {
    pub column: &'a C,
    pub n: usize,
    pub op: u32,
    pub a: i64,
    pub b: i64,
    pub bitmap: &'a [u8],
}

/// 2, 3, 4, then the column's own.
pub fn scan<C: Column>(call: &Scan<C>) -> Outcome<u8> {
    let Scan { column, n, .. } = *call;
    let short = call.bitmap.len() < n.div_ceil(8);
    let read = within_limits(n, Some(call.op), short, || column.read(n));
    let holds = |x| satisfies(call.op, x, call.a.into(), call.b.into());
    scanned(read, holds, call.bitmap)
}

pub struct Unpack<'a, C> {
    pub column: &'a C,
    pub n: usize,
    pub entries: &'a [i32],
}

/// 2, 4, then the column's own.
pub fn unpack<C: Column>(call: &Unpack<C>) -> Outcome<i32> {
    let Unpack { column, n, .. } = *call;
    let read = within_limits(n, None, call.entries.len() < n, || column.read(n));
    unpacked(read, call.entries)
}
