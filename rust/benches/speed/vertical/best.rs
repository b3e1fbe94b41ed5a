//! The best Rust that we know for the job, by constants for each width: planes compared from the lowest up with one
//! operation for each end, four groups at once; blocks of bits turned over by shifts and masks. The entries are a
//! multiple of 256.

use crate::column::of_each_width;

/// Takes a plane into the lanes that are not less (or not greater) than an end by the planes below it: at a set bit of
/// the end both have to be set, else one is enough.
#[inline(always)]
fn take(lanes: &mut [u64; 4], planes: [u64; 4], both: bool) {
    for (lane, plane) in lanes.iter_mut().zip(planes) {
        *lane = if both { *lane & plane } else { *lane | plane };
    }
}

/// The lanes of four groups from low to high, both below 2^W.
#[inline(always)]
fn inside<const W: usize>(groups: &[u64], low: u32, high: u32) -> [u64; 4] {
    let (mut ge, mut le) = ([u64::MAX; 4], [u64::MAX; 4]);
    for b in 0..W {
        let planes = [0, 1, 2, 3].map(|g| groups[W * g + W - 1 - b]);
        let others = planes.map(|plane| !plane);
        take(&mut ge, planes, low >> b & 1 == 1);
        take(&mut le, others, high >> b & 1 == 0);
    }
    [0, 1, 2, 3].map(|g| ge[g] & le[g])
}

fn select<const W: usize>(words: &[u64], low: u32, high: u32, bitmap: &mut [u8]) -> usize {
    let mut count = 0;
    for (groups, bytes) in words.chunks_exact(4 * W).zip(bitmap.chunks_exact_mut(32)) {
        let inside = inside::<W>(groups, low, high);
        for (eight, word) in bytes.chunks_exact_mut(8).zip(inside) {
            eight.copy_from_slice(&word.to_le_bytes());
            count += word.count_ones() as usize;
        }
    }
    count
}

/// Selects the entries from low to high, which are below 2^width, and counts them. The width is 1 to 32.
pub fn scan(words: &[u64], width: u32, low: u32, high: u32, bitmap: &mut [u8]) -> usize {
    type Select = fn(&[u64], u32, u32, &mut [u8]) -> usize;
    const SELECTS: [Select; 32] = of_each_width!(select as Select);
    SELECTS[width as usize - 1](words, low, high, bitmap)
}

/// Turns over the blocks of N × N bits that stand beside one another in N words; N is 8, 16 or 32.
#[inline(always)]
fn turn<const N: usize>(block: &mut [u64; N]) {
    let mut j = N / 2;
    while j > 0 {
        // The lower j of every 2 × j bits.
        let lower = u64::MAX / ((1 << j) + 1);
        for pair in block.chunks_exact_mut(2 * j) {
            let (first, second) = pair.split_at_mut(j);
            for (a, b) in first.iter_mut().zip(second) {
                let moved = (*a >> j ^ *b) & lower;
                *b ^= moved;
                *a ^= moved << j;
            }
        }
        j /= 2;
    }
}

/// 64 entries from their planes: bit p of entry N × c + r is bit N × c + p of word r once the blocks are turned over.
#[inline(always)]
fn unpack_group<const N: usize>(group: &[u64], entries: &mut [u32]) {
    let mut block = [0; N];
    for (word, plane) in block.iter_mut().zip(group.iter().rev()) {
        *word = *plane;
    }
    turn(&mut block);
    for (c, some) in entries.chunks_exact_mut(N).enumerate() {
        for (entry, word) in some.iter_mut().zip(block) {
            *entry = (word >> (N * c)) as u32 & u32::MAX >> (32 - N);
        }
    }
}

fn unpack_all<const W: usize>(words: &[u64], entries: &mut [u32]) {
    for (group, entries) in words.chunks_exact(W).zip(entries.chunks_exact_mut(64)) {
        match W {
            1..=8 => unpack_group::<8>(group, entries),
            9..=16 => unpack_group::<16>(group, entries),
            _ => unpack_group::<32>(group, entries),
        }
    }
}

/// Unpacks and counts the entries. The width is 1 to 32.
pub fn unpack(words: &[u64], width: u32, entries: &mut [u32]) -> usize {
    type Unpack = fn(&[u64], &mut [u32]);
    const UNPACKS: [Unpack; 32] = of_each_width!(unpack_all as Unpack);
    UNPACKS[width as usize - 1](words, entries);
    entries.len()
}

/// The planes of 64 entries, the other way round.
#[inline(always)]
fn pack_group<const N: usize>(entries: &[u32], group: &mut [u64]) {
    let mut block = [0; N];
    for (c, some) in entries.chunks_exact(N).enumerate() {
        for (word, &entry) in block.iter_mut().zip(some) {
            *word |= u64::from(entry) << (N * c);
        }
    }
    turn(&mut block);
    for (plane, word) in group.iter_mut().rev().zip(block) {
        *plane = word;
    }
}

fn pack_all<const W: usize>(entries: &[u32], words: &mut [u64]) {
    for (entries, group) in entries.chunks_exact(64).zip(words.chunks_exact_mut(W)) {
        match W {
            1..=8 => pack_group::<8>(entries, group),
            9..=16 => pack_group::<16>(entries, group),
            _ => pack_group::<32>(entries, group),
        }
    }
}

/// Packs the entries, and gives the length written if all are below 2^width. The width is 1 to 32.
pub fn pack(entries: &[u32], width: u32, words: &mut [u64]) -> Option<usize> {
    type Pack = fn(&[u32], &mut [u64]);
    const PACKS: [Pack; 32] = of_each_width!(pack_all as Pack);
    let seen = entries.iter().fold(0, |seen, entry| seen | entry);
    PACKS[width as usize - 1](entries, words);
    (u64::from(seen) >> width == 0).then_some(words.len())
}
