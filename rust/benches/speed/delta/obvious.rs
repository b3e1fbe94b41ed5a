//! The obvious safe Rust: one delta after another, each through a window of eight bytes, added to the entry before.

use super::page::{put_header, zigzag, Blocks};
use crate::horizontal::obvious::entry;
use crate::runs::obvious::put_groups;
use crate::writer::Writer;

/// Goes to each of n entries with its number.
fn visit(page: &[u8], n: usize, mut to: impl FnMut(usize, i32)) -> Option<()> {
    let blocks = Blocks::of(page, n)?;
    let mut last = blocks.first;
    let mut at = 0;
    if n > 0 {
        to(0, last);
    }
    blocks.visit(|mini| {
        for k in 0..mini.count {
            let number = entry(mini.body, mini.width as u32, k);
            last = last.wrapping_add(mini.smallest).wrapping_add(number as i32);
            at += 1;
            to(at, last);
        }
    })
}

/// Reads as many entries as there are places, and gives their number.
pub fn unpack(page: &[u8], entries: &mut [i32]) -> Option<usize> {
    visit(page, entries.len(), |i, x| entries[i] = x)?;
    Some(entries.len())
}

/// Selects the entries from low to high, and counts them.
pub fn scan(page: &[u8], n: usize, low: i32, high: i32, bitmap: &mut [u8]) -> Option<usize> {
    let mut count = 0;
    bitmap.fill(0);
    visit(page, n, |i, x| {
        let selected = (low <= x) & (x <= high);
        bitmap[i / 8] |= u8::from(selected) << (i % 8);
        count += usize::from(selected);
    })?;
    Some(count)
}

/// Packs the entries, and gives the length written.
pub fn pack(entries: &[i32], page: &mut [u8]) -> usize {
    let mut writer = Writer::to(page);
    put_header(entries, &mut writer);
    let pairs = entries.iter().zip(entries.iter().skip(1));
    let deltas: Vec<i32> = pairs.map(|(a, b)| b.wrapping_sub(*a)).collect();
    for block in deltas.chunks(128) {
        let least = block.iter().copied().min().unwrap_or(0);
        let above = block.iter().map(|delta| delta.wrapping_sub(least) as u32);
        let above: Vec<u32> = above.collect();
        let width = |mini: &[u32]| 32 - mini.iter().fold(0, |all, x| all | x).leading_zeros();
        let minis: Vec<(&[u32], u32)> = above.chunks(32).map(|mini| (mini, width(mini))).collect();
        writer.number(zigzag(least));
        for m in 0..4 {
            writer.bytes(&[minis.get(m).map_or(0, |&(_, width)| width as u8)]);
        }
        for (mini, width) in minis {
            put_groups(mini, 4, width, &mut writer);
        }
    }
    writer.at
}
