//! The obvious safe Rust: one entry after another, no branch on what it holds.

/// The eight bytes from a place on as a number, low byte first; past the page's end they are 0.
fn window(page: &[u8], at: usize) -> u64 {
    match page.get(at..at + 8) {
        Some(bytes) => bytes.iter().rev().fold(0, |w, &b| w << 8 | u64::from(b)),
        None => (at..page.len())
            .rev()
            .fold(0, |w, i| w << 8 | u64::from(page[i])),
    }
}

/// An entry, through the window in which it stands whole.
pub fn entry(page: &[u8], width: u32, i: usize) -> u32 {
    let first = i * width as usize;
    let bits = window(page, first / 8) >> (first % 8);
    (bits & ((1 << width) - 1)) as u32
}

/// Selects the entries from low to high, eight to a byte of the bitmap, and counts them.
pub fn scan(page: &[u8], width: u32, low: u32, high: u32, bitmap: &mut [u8]) -> usize {
    let mut count = 0;
    for (g, byte) in bitmap.iter_mut().enumerate() {
        *byte = 0;
        for k in 0..8 {
            let x = entry(page, width, 8 * g + k);
            *byte |= u8::from((low <= x) & (x <= high)) << k;
        }
        count += byte.count_ones() as usize;
    }
    count
}

/// Unpacks and counts the entries.
pub fn unpack(page: &[u8], width: u32, entries: &mut [u32]) -> usize {
    for (i, place) in entries.iter_mut().enumerate() {
        *place = entry(page, width, i);
    }
    entries.len()
}

/// Packs the entries, and gives the length written if all are below 2^width.
pub fn pack(entries: &[u32], width: u32, page: &mut [u8]) -> Option<usize> {
    let mut bits = 0u64;
    let mut held = 0;
    let mut at = 0;
    let mut seen = 0;
    for &entry in entries {
        seen |= entry;
        bits |= u64::from(entry) << held;
        held += width;
        while held >= 8 {
            page[at] = bits as u8;
            at += 1;
            bits >>= 8;
            held -= 8;
        }
    }
    if held > 0 {
        page[at] = bits as u8;
        at += 1;
    }
    (u64::from(seen) >> width == 0).then_some(at)
}
