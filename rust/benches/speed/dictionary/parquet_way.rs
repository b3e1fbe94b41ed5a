//! As the parquet crate does it: indexes are read into a list, then each is looked up among the values and compared.

use super::page::{stream, values};
use crate::runs::parquet_way::unpack as unpack_indexes;

/// The n indexes of a page.
fn indexes(page: &[u8], n: usize) -> Option<Vec<u32>> {
    let (width, stream) = stream(page)?;
    let mut indexes = vec![0; n];
    unpack_indexes(stream, width, &mut indexes)?;
    Some(indexes)
}

/// Looks up as many entries as there are places, and gives their number.
pub fn unpack(dictionary: &[u8], page: &[u8], entries: &mut [i32]) -> Option<usize> {
    let values = values(dictionary)?;
    let indexes = indexes(page, entries.len())?;
    for (place, &index) in entries.iter_mut().zip(&indexes) {
        *place = *values.get(index as usize)?;
    }
    Some(indexes.len())
}

/// Selects the entries from low to high, and counts them.
pub fn scan(
    dictionary: &[u8],
    page: &[u8],
    n: usize,
    low: i32,
    high: i32,
    bitmap: &mut [u8],
) -> Option<usize> {
    let values = values(dictionary)?;
    let mut count = 0;
    for (byte, eight) in bitmap.iter_mut().zip(indexes(page, n)?.chunks(8)) {
        *byte = 0;
        for (k, &index) in eight.iter().enumerate() {
            let value = *values.get(index as usize)?;
            *byte |= u8::from((low <= value) & (value <= high)) << k;
        }
        count += byte.count_ones() as usize;
    }
    Some(count)
}
