//! The best Rust that we know for the job: deltas unpacked straight from the page by constants for each width, and added
//! up into a list; the list compared several at once. Packed with constant shifts from one block on the stack. The entries
//! scanned are a multiple of 64.

use super::page::{put_header, zigzag, Blocks, Mini};
use super::parquet_way;
use crate::column::of_each_width;
use crate::horizontal::best::{pack8, unpack8};
use crate::horizontal::lanes::word_of_tests;
use crate::writer::Writer;

/// Adds up a miniblock's deltas to as many places. Gives the last entry.
fn add_up<const W: usize>(mini: &Mini, mut last: i32, entries: &mut [i32]) -> i32 {
    if mini.from_body.len() < mini.body.len() + 8 || !mini.count.is_multiple_of(32) {
        return parquet_way::add_up::<W>(mini.body, mini.smallest, last, entries);
    }
    for (g, places) in entries.chunks_exact_mut(8).enumerate() {
        // SAFETY: 8 bytes are there after the body.
        let numbers = unsafe { unpack8::<W>(mini.from_body.as_ptr().add(g * W)) };
        for (place, number) in places.iter_mut().zip(numbers) {
            last = last.wrapping_add(mini.smallest.wrapping_add(number as i32));
            *place = last;
        }
    }
    last
}

/// Reads as many entries as there are places, and gives their number.
pub fn unpack(page: &[u8], entries: &mut [i32]) -> Option<usize> {
    type AddUp = fn(&Mini, i32, &mut [i32]) -> i32;
    const ADD_UP: [AddUp; 32] = of_each_width!(add_up as AddUp);
    let blocks = Blocks::of(page, entries.len())?;
    let mut last = blocks.first;
    entries.iter_mut().take(1).for_each(|place| *place = last);
    let mut at = 1;
    blocks.visit(|mini| {
        let places = &mut entries[at..][..mini.count];
        last = match mini.width {
            0 => parquet_way::add_up_equal(mini.smallest, last, places),
            width => ADD_UP[width - 1](&mini, last, places),
        };
        at += mini.count;
    })?;
    Some(entries.len())
}

/// Selects the entries from low to high, and counts them.
pub fn scan(page: &[u8], n: usize, low: i32, high: i32, bitmap: &mut [u8]) -> Option<usize> {
    let mut entries = vec![0; n];
    unpack(page, &mut entries)?;
    let span = high.wrapping_sub(low) as u32;
    let mut count = 0;
    let (groups, _) = entries.as_chunks::<64>();
    for (group, eight) in groups.iter().zip(bitmap.chunks_exact_mut(8)) {
        let word = word_of_tests(group, |entry| entry.wrapping_sub(low) as u32 <= span);
        eight.copy_from_slice(&word.to_le_bytes());
        count += word.count_ones() as usize;
    }
    Some(count)
}

fn put<const W: usize>(mini: &[u32; 32], writer: &mut Writer) {
    let (eights, _) = mini.as_chunks();
    for eight in eights {
        writer.bytes(&pack8::<W>(eight)[..W]);
    }
}

/// A block of the deltas between entries, at least 1 and at most 128; what is not there is packed as 0.
fn put_block(entries: &[i32], writer: &mut Writer) {
    type Put = fn(&[u32; 32], &mut Writer);
    const PUTS: [Put; 32] = of_each_width!(put as Put);
    let count = entries.len() - 1;
    let mut deltas = [0; 128];
    for ((delta, next), entry) in deltas.iter_mut().zip(&entries[1..]).zip(entries) {
        *delta = next.wrapping_sub(*entry);
    }
    let least = deltas[..count]
        .iter()
        .fold(i32::MAX, |least, &delta| least.min(delta));
    deltas[count..].fill(least);
    let above = deltas.map(|delta| delta.wrapping_sub(least) as u32);
    let (minis, _) = above.as_chunks::<32>();
    writer.number(zigzag(least));
    let header = writer.at;
    writer.at += 4;
    for (m, mini) in minis.iter().enumerate() {
        let width = 32 - mini.iter().fold(0, |all, x| all | x).leading_zeros();
        writer.page[header + m] = width as u8;
        if width > 0 {
            PUTS[width as usize - 1](mini, writer);
        }
    }
}

/// Packs the entries, and gives the length written.
pub fn pack(entries: &[i32], page: &mut [u8]) -> usize {
    let mut writer = Writer::to(page);
    put_header(entries, &mut writer);
    for first in (0..entries.len().saturating_sub(1)).step_by(128) {
        put_block(&entries[first..entries.len().min(first + 129)], &mut writer);
    }
    writer.at
}
