//! As the parquet and arrow crates do it: entries unpacked 64 at once with constant shifts into a batch, and the batch
//! compared, 64 entries to a word of the bitmap; packed by a bit writer. The entries read are a multiple of 64.

use crate::column::{of_each_width, with_0_to_63};
use crate::writer::BitWriter;

/// Word i of eight bytes, low byte first.
///
/// # Safety
///
/// The page has 8 × (i + 1) bytes from `page` on.
unsafe fn word(page: *const u8, i: usize) -> u64 {
    // SAFETY: the caller says so, and no alignment is asked.
    u64::from_le(unsafe { page.cast::<u64>().add(i).read_unaligned() })
}

/// Entry I of a group of 64: all shifts are constants once W and I are.
///
/// # Safety
///
/// The page has 8 × W bytes from `page` on, and I is below 64.
#[inline(always)]
unsafe fn entry<const W: usize, const I: usize>(page: *const u8) -> u32 {
    let (first, shift) = (I * W / 64, I * W % 64);
    // SAFETY: bit I × W + W − 1 of the group stands in its W words.
    let low = unsafe { word(page, first) } >> shift;
    let bits = if shift + W > 64 {
        // SAFETY: as above; the entry ends in the next word.
        low | unsafe { word(page, first + 1) } << (64 - shift)
    } else {
        low
    };
    (bits & ((1 << W) - 1)) as u32
}

/// # Safety
///
/// The page has 8 × W bytes from `page` on.
#[inline(always)]
pub unsafe fn unpack64<const W: usize>(page: *const u8) -> [u32; 64] {
    macro_rules! entries {
        ($($i:literal)*) => {
            // SAFETY: the caller says that all 64 entries are there.
            unsafe { [$(entry::<W, $i>(page)),*] }
        };
    }
    with_0_to_63!(entries)
}

/// Bit i is set if entry i is selected. A byte at a time is twice as fast as one chain of 64 bits.
#[inline(always)]
pub fn word_of(entries: &[u32; 64], low: u32, span: u32) -> u64 {
    let mut word = 0;
    for (g, eight) in entries.chunks_exact(8).enumerate() {
        let mut byte = 0;
        for (k, x) in eight.iter().enumerate() {
            byte |= u32::from(x.wrapping_sub(low) <= span) << k;
        }
        word |= u64::from(byte) << (8 * g);
    }
    word
}

/// Entries unpacked before they are compared, as many as a batch of a Parquet reader has.
const BATCH: usize = 1024;

/// Unpacks the groups of 64 entries of W bits into the places.
fn unpack_groups<const W: usize>(page: &[u8], entries: &mut [u32]) {
    let groups = page.chunks_exact(8 * W);
    for (group, places) in groups.zip(entries.chunks_exact_mut(64)) {
        // SAFETY: the group has 8 × W bytes.
        places.copy_from_slice(&unsafe { unpack64::<W>(group.as_ptr()) });
    }
}

/// Selects the entries of W bits from `low` to `low + span`, and counts them.
fn select<const W: usize>(page: &[u8], low: u32, span: u32, bitmap: &mut [u8]) -> usize {
    let mut count = 0;
    let mut entries = [0; BATCH];
    let batches = page.chunks(BATCH / 8 * W);
    for (batch, bytes) in batches.zip(bitmap.chunks_mut(BATCH / 8)) {
        unpack_groups::<W>(batch, &mut entries);
        let (groups, _) = entries.as_chunks();
        for (group, eight) in groups.iter().zip(bytes.chunks_exact_mut(8)) {
            let word = word_of(group, low, span);
            eight.copy_from_slice(&word.to_le_bytes());
            count += word.count_ones() as usize;
        }
    }
    count
}

/// Selects the entries from low to high, and counts them. The width is 1 to 32.
pub fn scan(page: &[u8], width: u32, low: u32, high: u32, bitmap: &mut [u8]) -> usize {
    type Select = fn(&[u8], u32, u32, &mut [u8]) -> usize;
    const SELECTS: [Select; 32] = of_each_width!(select as Select);
    SELECTS[width as usize - 1](page, low, high - low, bitmap)
}

/// Unpacks and counts the entries. The width is 1 to 32.
pub fn unpack(page: &[u8], width: u32, entries: &mut [u32]) -> usize {
    type Unpack = fn(&[u8], &mut [u32]);
    const UNPACKS: [Unpack; 32] = of_each_width!(unpack_groups as Unpack);
    UNPACKS[width as usize - 1](page, entries);
    entries.len()
}

/// Packs the entries, and gives the length written if all are below 2^width.
pub fn pack(entries: &[u32], width: u32, page: &mut [u8]) -> Option<usize> {
    let mut writer = BitWriter::to(page);
    let mut seen = 0;
    for &entry in entries {
        seen |= entry;
        writer.put(entry, width);
    }
    (u64::from(seen) >> width == 0).then_some(writer.aligned().at)
}
