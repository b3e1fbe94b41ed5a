//! The obvious loops: one entry after another, in safe Rust.

use cahermisk::spans::places;

fn is_selected(bitmap: &[u8], i: usize) -> bool {
    bitmap[i / 8] >> (i % 8) & 1 == 1
}

/// How many stretches begin.
fn count(bitmap: &[u8], n: usize) -> usize {
    let mut count = 0;
    let mut before = false;
    for i in 0..n {
        let selected = is_selected(bitmap, i);
        count += usize::from(selected && !before);
        before = selected;
    }
    count
}

/// Writes the spans of n entries, and gives how many they are. Where there is no room for them, nothing is written.
pub fn from_bitmap(bitmap: &[u8], n: usize, spans: &mut [u32]) -> Option<usize> {
    if spans.len() < places(n) && spans.len() < 2 * count(bitmap, n) {
        return None;
    }
    let mut pairs = 0;
    let mut before = false;
    for i in 0..n {
        let selected = is_selected(bitmap, i);
        if selected && !before {
            spans[2 * pairs] = i as u32;
        }
        if before && !selected {
            spans[2 * pairs + 1] = i as u32 - 1;
            pairs += 1;
        }
        before = selected;
    }
    if before {
        spans[2 * pairs + 1] = n as u32 - 1;
        pairs += 1;
    }
    Some(pairs)
}

/// Whether each pair is one, and below n, and the pairs ascend with a gap.
fn is_good(list: &[u32], n: usize) -> bool {
    let mut from = 0;
    for pair in list.chunks_exact(2) {
        let (first, last) = (pair[0] as usize, pair[1] as usize);
        if first < from || last < first || last >= n {
            return false;
        }
        from = last + 2;
    }
    true
}

/// Writes the bitmap of n entries, and gives how many are selected. A list that is not good writes nothing.
pub fn to_bitmap(list: &[u32], n: usize, bitmap: &mut [u8]) -> Option<usize> {
    if !list.len().is_multiple_of(2) || bitmap.len() < n.div_ceil(8) || !is_good(list, n) {
        return None;
    }
    bitmap[..n.div_ceil(8)].fill(0);
    let mut count = 0;
    for pair in list.chunks_exact(2) {
        for i in pair[0] as usize..=pair[1] as usize {
            bitmap[i / 8] |= 1 << (i % 8);
            count += 1;
        }
    }
    Some(count)
}
