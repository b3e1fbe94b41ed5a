//! The best Rust that we know for the job: 64 entries at once. There are a multiple of 64 of them.

use cahermisk::spans::places;

fn words(bitmap: &[u8], n: usize) -> impl Iterator<Item = u64> + '_ {
    let (eights, _) = bitmap[..n / 8].as_chunks::<8>();
    eights.iter().map(|&eight| u64::from_le_bytes(eight))
}

/// The entries of each word that are not as the one before: where a stretch begins, if selected, or where one has ended.
fn edges(bitmap: &[u8], n: usize) -> impl Iterator<Item = (u64, u64)> + '_ {
    let mut carry = 0;
    words(bitmap, n).map(move |word| {
        let before = word << 1 | carry;
        carry = word >> 63;
        (word, word ^ before)
    })
}

/// How many stretches begin.
fn count(bitmap: &[u8], n: usize) -> usize {
    let begun = edges(bitmap, n).map(|(word, edges)| (word & edges).count_ones());
    begun.sum::<u32>() as usize
}

/// Writes the spans of n entries, and gives how many they are. Where there is no room for them, nothing is written.
pub fn from_bitmap(bitmap: &[u8], n: usize, spans: &mut [u32]) -> Option<usize> {
    if spans.len() < places(n) && spans.len() < 2 * count(bitmap, n) {
        return None;
    }
    let places = spans.as_mut_ptr();
    // The number of each set bit, counted from some number on, to every other place.
    let put = |mut bits: u64, number: u32, mut at: usize| {
        while bits != 0 {
            // SAFETY: there are two places for each stretch.
            unsafe { *places.add(at) = number.wrapping_add(bits.trailing_zeros()) };
            at += 2;
            bits &= bits - 1;
        }
        at
    };
    let (mut first_at, mut last_at) = (0, 1);
    for (w, (word, edges)) in edges(bitmap, n).enumerate() {
        if edges != 0 {
            let number = 64 * w as u32;
            first_at = put(edges & word, number, first_at);
            last_at = put(edges & !word, number.wrapping_sub(1), last_at);
        }
    }
    if last_at < first_at {
        spans[last_at] = n as u32 - 1;
    }
    Some(first_at / 2)
}

/// How many entries are in the pairs, if each is one, and below n, and the pairs ascend with a gap: without a branch, so
/// that several are judged at once. A sum that comes round is of a number that is not below n.
fn judged(pairs: &[[u32; 2]], n: u32) -> Option<u32> {
    let Some(&[first, last]) = pairs.last() else {
        return Some(0);
    };
    let mut is_bad = (first > last) | (last >= n);
    let mut count = last.wrapping_sub(first);
    for two in pairs.windows(2) {
        let ([first, last], [next, _]) = (two[0], two[1]);
        is_bad |= (first > last) | (last >= n) | (next <= last.wrapping_add(1));
        count = count.wrapping_add(last.wrapping_sub(first));
    }
    (!is_bad).then(|| count + pairs.len() as u32)
}

/// Writes the bitmap of n entries, and gives how many are selected. A list that is not good writes nothing.
pub fn to_bitmap(list: &[u32], n: usize, bitmap: &mut [u8]) -> Option<usize> {
    let (pairs, []) = list.as_chunks::<2>() else {
        return None;
    };
    let (words, _) = bitmap.get_mut(..n / 8)?.as_chunks_mut::<8>();
    let count = judged(pairs, n as u32)?;
    let (mut at, mut word) = (0, 0);
    for &[first, last] in pairs {
        let (from, to) = (first as usize / 64, last as usize / 64);
        while at < from {
            words[at] = u64::to_le_bytes(word);
            (at, word) = (at + 1, 0);
        }
        word |= u64::MAX << (first % 64);
        while at < to {
            words[at] = u64::to_le_bytes(word);
            (at, word) = (at + 1, u64::MAX);
        }
        word &= u64::MAX >> (63 - last % 64);
    }
    if at < words.len() {
        words[at] = word.to_le_bytes();
        words[at + 1..].fill([0; 8]);
    }
    Some(count as usize)
}
