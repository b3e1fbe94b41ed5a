//! A layout as its tests know it.

use std::fmt::{Debug, LowerHex};

use crate::raw;
use crate::reader::calls::Rules;
use crate::support::calls::Calls;
use crate::support::lent::Filled;
use crate::support::random::Random;
use crate::support::row::Row;

/// The rules of a layout, the library's functions for it, and pages to call them with.
pub trait Layout: Rules<Unit: Filled + Debug + LowerHex> {
    const NAME: &'static str;
    const SCAN: raw::Scan<Self::Unit>;
    const UNPACK: raw::Unpack<Self::Unit>;
    const PACK: raw::Pack<Self::Unit>;

    /// Any good page of n entries.
    fn random_page(width: u32, n: usize, random: &mut Random) -> Vec<Self::Unit>;

    /// The page of n entries that are 0, at any width up to 64.
    fn page_of_zeros(width: u32, n: usize) -> Vec<Self::Unit>;

    /// Makes the call of a row of data/vectors that is none of a scan, an unpack and a pack.
    fn other_call(
        _calls: &mut Calls,
        name: &str,
        _row: &mut Row,
        _line: &str,
    ) -> Result<(), String> {
        Err(format!("'{name}' is no function"))
    }
}
