//! The obvious safe Rust: run by run, each index looked up among the values and its value compared.

use super::page::{stream, values};
use crate::runs::obvious::visit;

/// Goes to each of n entries with its number.
fn look_up(dictionary: &[u8], page: &[u8], n: usize, mut to: impl FnMut(usize, i32)) -> Option<()> {
    let values = values(dictionary)?;
    let (width, stream) = stream(page)?;
    let mut good = true;
    visit(stream, width, n, |i, index| {
        match values.get(index as usize) {
            Some(&value) => to(i, value),
            None => good = false,
        }
    })?;
    good.then_some(())
}

/// Looks up as many entries as there are places, and gives their number.
pub fn unpack(dictionary: &[u8], page: &[u8], entries: &mut [i32]) -> Option<usize> {
    look_up(dictionary, page, entries.len(), |i, value| {
        entries[i] = value
    })?;
    Some(entries.len())
}

/// Selects the entries from low to high, and counts them.
pub fn scan(
    dictionary: &[u8],
    page: &[u8],
    n: usize,
    low: i32,
    high: i32,
    bitmap: &mut [u8],
) -> Option<usize> {
    let mut count = 0;
    bitmap.fill(0);
    look_up(dictionary, page, n, |i, value| {
        let selected = (low <= value) & (value <= high);
        bitmap[i / 8] |= u8::from(selected) << (i % 8);
        count += usize::from(selected);
    })?;
    Some(count)
}
