//! The obvious safe Rust: run by run, and each run's entries one after another.

use super::page::{next, put_repeated, Run};
use crate::horizontal::obvious::{entry, pack as pack_bits};
use crate::writer::Writer;

/// Goes to each of n entries with its number.
pub fn visit(mut page: &[u8], width: u32, n: usize, mut to: impl FnMut(usize, u32)) -> Option<()> {
    let mut at = 0;
    while at < n {
        let left = n - at;
        at += match next(&mut page, width, left)? {
            Run::Repeated(length, value) => {
                (0..length).for_each(|k| to(at + k, value));
                length
            }
            Run::Packed(groups, from_body) => {
                let some = left.min(8 * groups);
                let body = &from_body[..groups * width as usize];
                (0..some).for_each(|k| to(at + k, entry(body, width, k)));
                some
            }
        };
    }
    page.is_empty().then_some(())
}

/// Selects the entries from low to high, and counts them.
pub fn scan(
    page: &[u8],
    width: u32,
    n: usize,
    low: u32,
    high: u32,
    bitmap: &mut [u8],
) -> Option<usize> {
    let mut count = 0;
    bitmap.fill(0);
    visit(page, width, n, |i, x| {
        let selected = (low <= x) & (x <= high);
        bitmap[i / 8] |= u8::from(selected) << (i % 8);
        count += usize::from(selected);
    })?;
    Some(count)
}

/// Reads as many entries as there are places, and gives their number.
pub fn unpack(page: &[u8], width: u32, entries: &mut [u32]) -> Option<usize> {
    visit(page, width, entries.len(), |i, x| entries[i] = x)?;
    Some(entries.len())
}

/// How many entries from the first on are equal.
fn stretch(entries: &[u32]) -> usize {
    let other = entries.iter().position(|&entry| entry != entries[0]);
    other.unwrap_or(entries.len())
}

/// How many groups a packed run takes from here: up to a repeated run, the end, or 63.
fn groups(entries: &[u32]) -> usize {
    let most = entries.len().div_ceil(8).min(63);
    let closes = |&g: &usize| entries[8 * g..].len() >= 8 && stretch(&entries[8 * g..][..8]) == 8;
    (0..most).find(closes).unwrap_or(most)
}

/// Packs the entries, and gives the length written if all are below 2^width.
pub fn pack(entries: &[u32], width: u32, page: &mut [u8]) -> Option<usize> {
    let all = entries.iter().fold(0, |all, &entry| all | entry);
    if u64::from(all) >> width != 0 {
        return None;
    }
    let mut writer = Writer::to(page);
    let mut rest = entries;
    while let Some(&first) = rest.first() {
        let length = stretch(rest);
        if length >= 8 {
            put_repeated(length, first, width, &mut writer);
            rest = &rest[length..];
        } else {
            let groups = groups(rest);
            writer.number(2 * groups + 1);
            let (packed, later) = rest.split_at(rest.len().min(8 * groups));
            put_groups(packed, groups, width, &mut writer);
            rest = later;
        }
    }
    Some(writer.at)
}

/// The entries in whole groups, filled with 0.
pub fn put_groups(entries: &[u32], groups: usize, width: u32, writer: &mut Writer) {
    let body = &mut writer.page[writer.at..][..groups * width as usize];
    let written = pack_bits(entries, width, body);
    body[written.expect("the entries fit the width")..].fill(0);
    writer.at += body.len();
}
