//! Bare horizontal pages: entry i takes bits i × w to i × w + w − 1, lowest first, bytes in order.

use super::bare::{read, Bare};
use super::calls::Rules;
use super::{bit, units_of};

pub struct Horizontal;

impl Rules for Horizontal {
    type Unit = u8;

    fn read(page: &[u8], width: u32, n: usize) -> Result<Vec<u32>, u32> {
        read::<Self>(page, width, n)
    }

    fn page_of(entries: &[u32], width: u32) -> Vec<u8> {
        let mut bits = Vec::new();
        for &entry in entries {
            for k in 0..width {
                bits.push(bit(u64::from(entry), k as usize));
            }
        }
        units_of(&bits)
    }
}

impl Bare for Horizontal {
    /// The input has exactly ceil(n × w / 8) bytes.
    fn page_len(width: u32, n: usize) -> usize {
        (n * width as usize).div_ceil(8)
    }

    fn entry(page: &[u8], width: u32, i: usize) -> u32 {
        let mut value = 0;
        for k in 0..width as usize {
            let at = i * width as usize + k;
            if bit(page[at / 8], at % 8) {
                value += 1u32 << k;
            }
        }
        value
    }

    fn unused_bits(width: u32, n: usize) -> Vec<(usize, usize)> {
        let unused = n * width as usize..Self::page_len(width, n) * 8;
        unused.map(|at| (at / 8, at % 8)).collect()
    }
}
