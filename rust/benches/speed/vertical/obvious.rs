//! The obvious safe Rust: one entry after another, bit by bit, no branch on what it holds.

/// An entry, its bits put together from the most significant down.
fn entry(words: &[u64], width: u32, i: usize) -> u32 {
    let width = width as usize;
    let group = &words[i / 64 * width..][..width];
    let add_bit = |x, word: &u64| x << 1 | (word >> (i % 64) & 1) as u32;
    group.iter().fold(0, add_bit)
}

/// Selects the entries from low to high, eight to a byte of the bitmap, and counts them.
pub fn scan(words: &[u64], width: u32, low: u32, high: u32, bitmap: &mut [u8]) -> usize {
    let mut count = 0;
    for (g, byte) in bitmap.iter_mut().enumerate() {
        *byte = 0;
        for k in 0..8 {
            let x = entry(words, width, 8 * g + k);
            *byte |= u8::from((low <= x) & (x <= high)) << k;
        }
        count += byte.count_ones() as usize;
    }
    count
}

/// Unpacks and counts the entries.
pub fn unpack(words: &[u64], width: u32, entries: &mut [u32]) -> usize {
    for (i, place) in entries.iter_mut().enumerate() {
        *place = entry(words, width, i);
    }
    entries.len()
}

/// Packs the entries, and gives the length written if all are below 2^width.
pub fn pack(entries: &[u32], width: u32, words: &mut [u64]) -> Option<usize> {
    let mut seen = 0;
    words.fill(0);
    for (i, &entry) in entries.iter().enumerate() {
        seen |= entry;
        let group = &mut words[i / 64 * width as usize..][..width as usize];
        for (k, word) in group.iter_mut().rev().enumerate() {
            *word |= u64::from(entry >> k & 1) << (i % 64);
        }
    }
    (u64::from(seen) >> width == 0).then_some(words.len())
}
