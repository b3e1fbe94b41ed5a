//! As the parquet crate does it: deltas are unpacked 32 at once, with shifts that are constants for each width, and added
//! up into a list of entries; the list is compared. Packed by its bit writer, a block at a time.

use super::page::{put_header, zigzag, Blocks};
use crate::column::of_each_width;
use crate::runs::parquet_way::{at_once, select};
use crate::writer::BitWriter;

/// Adds up the deltas of a body, 32 at once, as many as there are places. Gives the last entry.
pub fn add_up<const W: usize>(
    body: &[u8],
    smallest: i32,
    mut last: i32,
    entries: &mut [i32],
) -> i32 {
    for (some, packed) in entries.chunks_mut(32).zip(body.chunks_exact(4 * W)) {
        for (place, number) in some.iter_mut().zip(at_once::<W, 32, 136>(packed)) {
            last = last.wrapping_add(smallest).wrapping_add(number as i32);
            *place = last;
        }
    }
    last
}

/// The same where the width is 0 and there is no body.
pub fn add_up_equal(smallest: i32, mut last: i32, entries: &mut [i32]) -> i32 {
    for place in entries {
        last = last.wrapping_add(smallest);
        *place = last;
    }
    last
}

/// Reads as many entries as there are places, and gives their number.
pub fn unpack(page: &[u8], entries: &mut [i32]) -> Option<usize> {
    type AddUp = fn(&[u8], i32, i32, &mut [i32]) -> i32;
    const ADD_UP: [AddUp; 32] = of_each_width!(add_up as AddUp);
    let blocks = Blocks::of(page, entries.len())?;
    let mut last = blocks.first;
    entries.iter_mut().take(1).for_each(|place| *place = last);
    let mut at = 1;
    blocks.visit(|mini| {
        let places = &mut entries[at..][..mini.count];
        last = match mini.width {
            0 => add_up_equal(mini.smallest, last, places),
            width => ADD_UP[width - 1](mini.body, mini.smallest, last, places),
        };
        at += mini.count;
    })?;
    Some(entries.len())
}

/// Selects the entries from low to high, and counts them.
pub fn scan(page: &[u8], n: usize, low: i32, high: i32, bitmap: &mut [u8]) -> Option<usize> {
    let mut entries = vec![0; n];
    unpack(page, &mut entries)?;
    Some(select(&entries, low, high, bitmap))
}

/// Packs the entries, and gives the length written.
pub fn pack(entries: &[i32], page: &mut [u8]) -> usize {
    let mut bits = BitWriter::to(page);
    put_header(entries, bits.aligned());
    let mut deltas = Vec::with_capacity(128);
    for pair in entries.windows(2) {
        deltas.push(pair[1].wrapping_sub(pair[0]));
        if deltas.len() == 128 {
            pack_block(&deltas, &mut bits);
            deltas.clear();
        }
    }
    if !deltas.is_empty() {
        pack_block(&deltas, &mut bits);
    }
    bits.aligned().at
}

fn pack_block(deltas: &[i32], bits: &mut BitWriter) {
    let least = deltas.iter().copied().min().unwrap_or(0);
    let above = |delta: &i32| delta.wrapping_sub(least) as u32;
    let mut widths = [0; 4];
    for (width, mini) in widths.iter_mut().zip(deltas.chunks(32)) {
        let greatest = mini.iter().map(above).max().unwrap_or(0);
        *width = 32 - greatest.leading_zeros();
    }
    bits.aligned().number(zigzag(least));
    bits.aligned().bytes(&widths.map(|width| width as u8));
    for (mini, width) in deltas.chunks(32).zip(widths) {
        mini.iter().for_each(|delta| bits.put(above(delta), width));
        (mini.len()..32).for_each(|_| bits.put(0, width));
    }
}
