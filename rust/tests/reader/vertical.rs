//! Bit planes: groups of 64 entries; each group is w 64-bit words, the entries' most significant bit
//! first; entry j of the group is bit j, lowest first.

use super::bare::{read, Bare};
use super::calls::Rules;
use super::{bit, units_of};

pub struct Vertical;

/// The word in which bit k of entry i stands, k counted from the lowest.
fn word_of_bit(width: u32, i: usize, k: u32) -> usize {
    let before = (width - 1 - k) as usize;
    i / 64 * width as usize + before
}

impl Rules for Vertical {
    type Unit = u64;

    fn read(page: &[u64], width: u32, n: usize) -> Result<Vec<u32>, u32> {
        read::<Self>(page, width, n)
    }

    fn page_of(entries: &[u32], width: u32) -> Vec<u64> {
        let mut words = Vec::new();
        for group in entries.chunks(64) {
            for k in (0..width).rev() {
                let plane: Vec<bool> = group
                    .iter()
                    .map(|&e| bit(u64::from(e), k as usize))
                    .collect();
                words.extend(units_of::<u64>(&plane));
            }
        }
        words
    }
}

impl Bare for Vertical {
    /// Exactly ceil(n/64) × w words.
    fn page_len(width: u32, n: usize) -> usize {
        n.div_ceil(64) * width as usize
    }

    fn entry(page: &[u64], width: u32, i: usize) -> u32 {
        let mut value = 0;
        for k in 0..width {
            if bit(page[word_of_bit(width, i, k)], i % 64) {
                value += 1u32 << k;
            }
        }
        value
    }

    /// Lanes past n.
    fn unused_bits(width: u32, n: usize) -> Vec<(usize, usize)> {
        let mut unused = Vec::new();
        for i in n..n.div_ceil(64) * 64 {
            for k in 0..width {
                unused.push((word_of_bit(width, i, k), i % 64));
            }
        }
        unused
    }
}
