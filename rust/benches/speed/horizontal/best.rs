//! The best Rust that we know for the job: entries compared in the lanes of a word, and unpacked and packed with constant
//! shifts, straight from the page and straight to the place they go to. The entries are a multiple of 64.

use super::lanes::{word, word_of_tests, Band};
use super::parquet_way::unpack64;
use crate::column::{of_each_width, with_0_to_63};

/// 64 entries at once.
fn select_lanes<const W: usize>(page: &[u8], band: Band<W>, bitmap: &mut [u8]) -> usize {
    let mut count = 0;
    for (g, eight) in bitmap.chunks_exact_mut(8).enumerate() {
        // SAFETY: `select` leaves the last groups out, whose windows pass the page's end.
        let word = unsafe { band.all(page.as_ptr().add(8 * W * g)) };
        eight.copy_from_slice(&word.to_le_bytes());
        count += word.count_ones() as usize;
    }
    count
}

/// The same with no byte read after them.
fn select_unpacked<const W: usize>(page: &[u8], band: Band<W>, bitmap: &mut [u8]) -> usize {
    let mut count = 0;
    for (group, eight) in page.chunks_exact(8 * W).zip(bitmap.chunks_exact_mut(8)) {
        // SAFETY: the group has 8 × W bytes.
        let entries = unsafe { unpack64::<W>(group.as_ptr()) };
        let word = word_of_tests(&entries, |entry| band.has(entry));
        eight.copy_from_slice(&word.to_le_bytes());
        count += word.count_ones() as usize;
    }
    count
}

fn select<const W: usize>(page: &[u8], low: u32, high: u32, bitmap: &mut [u8]) -> usize {
    let band = Band::<W>::of(low, high);
    let (most, rest) = bitmap.split_at_mut(bitmap.len() - 8);
    let end = &page[most.len() * W..];
    select_lanes(page, band, most) + select_unpacked(end, band, rest)
}

/// Selects the entries from low to high, and counts them. The width is 1 to 32.
pub fn scan(page: &[u8], width: u32, low: u32, high: u32, bitmap: &mut [u8]) -> usize {
    type Select = fn(&[u8], u32, u32, &mut [u8]) -> usize;
    const SELECTS: [Select; 32] = of_each_width!(select as Select);
    SELECTS[width as usize - 1](page, low, high, bitmap)
}

/// Unpacks groups of 64: entries that are numbers of Rust several at once as they are, others with constant shifts.
fn unpack_all<const W: usize>(page: &[u8], entries: &mut [u32]) {
    let groups = page.chunks_exact(8 * W);
    for (group, places) in groups.zip(entries.chunks_exact_mut(64)) {
        match W {
            8 => {
                for (place, &byte) in places.iter_mut().zip(group) {
                    *place = byte.into();
                }
            }
            16 => {
                for (place, &two) in places.iter_mut().zip(group.as_chunks().0) {
                    *place = u16::from_le_bytes(two).into();
                }
            }
            32 => {
                for (place, &four) in places.iter_mut().zip(group.as_chunks().0) {
                    *place = u32::from_le_bytes(four);
                }
            }
            // SAFETY: the group has 8 × W bytes.
            _ => places.copy_from_slice(&unsafe { unpack64::<W>(group.as_ptr()) }),
        }
    }
}

/// The eight entries from a place on, each through a window of eight bytes.
///
/// # Safety
///
/// W + 8 bytes are there.
#[inline(always)]
pub unsafe fn unpack8<const W: usize>(page: *const u8) -> [u32; 8] {
    // SAFETY: each window begins within the W bytes of the group.
    let window = |bit: usize| unsafe { word(page, bit / 8) } >> (bit % 8);
    std::array::from_fn(|k| (window(k * W) & ((1 << W) - 1)) as u32)
}

/// Unpacks and counts the entries. The width is 1 to 32.
pub fn unpack(page: &[u8], width: u32, entries: &mut [u32]) -> usize {
    type Unpack = fn(&[u8], &mut [u32]);
    const UNPACKS: [Unpack; 32] = of_each_width!(unpack_all as Unpack);
    UNPACKS[width as usize - 1](page, entries);
    entries.len()
}

/// Entry I of some into the words that it stands in: all shifts are constants once W and I are.
#[inline(always)]
fn put<const W: usize, const I: usize>(entries: &[u32], words: &mut [u64]) {
    let (first, shift, entry) = (I * W / 64, I * W % 64, u64::from(entries[I]));
    words[first] |= entry << shift;
    if shift + W > 64 {
        words[first + 1] |= entry >> (64 - shift);
    }
}

/// 64 entries in W words, the first of 32.
#[inline(always)]
fn pack64<const W: usize>(entries: &[u32; 64]) -> [u64; 32] {
    let mut words = [0; 32];
    macro_rules! put_all {
        ($($i:literal)*) => { $(put::<W, $i>(entries, &mut words);)* };
    }
    with_0_to_63!(put_all);
    words
}

/// Eight entries in W bytes, the first of 32.
#[inline(always)]
pub fn pack8<const W: usize>(entries: &[u32; 8]) -> [u8; 32] {
    let mut words = [0; 4];
    macro_rules! put_all {
        ($($i:literal)*) => { $(put::<W, $i>(entries, &mut words);)* };
    }
    put_all!(0 1 2 3 4 5 6 7);
    let mut bytes = [0; 32];
    for (eight, word) in bytes.chunks_exact_mut(8).zip(words) {
        eight.copy_from_slice(&word.to_le_bytes());
    }
    bytes
}

fn pack_all<const W: usize>(entries: &[u32], page: &mut [u8]) {
    let (groups, _) = entries.as_chunks();
    for (group, bytes) in groups.iter().zip(page.chunks_exact_mut(8 * W)) {
        for (eight, word) in bytes.chunks_exact_mut(8).zip(pack64::<W>(group)) {
            eight.copy_from_slice(&word.to_le_bytes());
        }
    }
}

/// Packs the entries, and gives the length written if all are below 2^width. The width is 1 to 32.
pub fn pack(entries: &[u32], width: u32, page: &mut [u8]) -> Option<usize> {
    type Pack = fn(&[u32], &mut [u8]);
    const PACKS: [Pack; 32] = of_each_width!(pack_all as Pack);
    let seen = entries.iter().fold(0, |seen, entry| seen | entry);
    PACKS[width as usize - 1](entries, page);
    (u64::from(seen) >> width == 0).then_some(entries.len() / 8 * width as usize)
}
