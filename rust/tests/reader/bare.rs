//! The bare layouts: pages of an exact length, whose codes are 5, 6, 7 in this order. Where an entry stands,
//! each layout says itself.

use super::bit;
use super::calls::Rules;

/// What a bare layout says of its pages.
pub trait Bare: Rules {
    /// The length that the page of n entries has, exactly.
    fn page_len(width: u32, n: usize) -> usize;

    fn entry(page: &[Self::Unit], width: u32, i: usize) -> u32;

    /// The bits of the page of n entries in which no entry stands: the unit, and the bit in it.
    fn unused_bits(width: u32, n: usize) -> Vec<(usize, usize)>;
}

/// The n entries of a page, or the first code of 5, 6, 7 that holds.
pub fn read<B: Bare>(page: &[B::Unit], width: u32, n: usize) -> Result<Vec<u32>, u32> {
    if page.len() < B::page_len(width, n) {
        return Err(5);
    }
    if page.len() > B::page_len(width, n) {
        return Err(6);
    }
    let unused = B::unused_bits(width, n);
    if unused.into_iter().any(|(at, k)| bit(page[at], k)) {
        return Err(7);
    }
    Ok((0..n).map(|i| B::entry(page, width, i)).collect())
}
