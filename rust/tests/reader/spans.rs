//! Spans: the maximal stretches of selected entries as pairs, first and last number, and the bitmap of such pairs.

use super::{accepted, bit, refused, selection, Outcome};

/// Whether each of the first n entries is selected. Nothing else of the bitmap is looked at.
fn selected(bitmap: &[u8], n: usize) -> Vec<bool> {
    (0..n).map(|i| bit(bitmap[i / 8], i % 8)).collect()
}

/// A stretch begins where the entry before is not selected, and ends where the next one is not.
fn stretches(selected: &[bool]) -> Vec<u32> {
    let is_selected = |i: usize| selected.get(i) == Some(&true);
    let mut list = Vec::new();
    for i in 0..selected.len() {
        if is_selected(i) && (i == 0 || !is_selected(i - 1)) {
            list.push(i as u32);
        }
        if is_selected(i) && !is_selected(i + 1) {
            list.push(i as u32);
        }
    }
    list
}

pub struct FromBitmap<'a> {
    pub bitmap: &'a [u8],
    pub n: usize,
    pub spans: &'a [u32],
}

/// The first code of 2, 5, 4 that holds, else the pairs, ascending.
pub fn from_bitmap(call: &FromBitmap) -> Outcome<u32> {
    let FromBitmap { bitmap, n, spans } = *call;
    if n > 16_384 {
        return refused(2, spans);
    }
    if bitmap.len() < n.div_ceil(8) {
        return refused(5, spans);
    }
    let list = stretches(&selected(bitmap, n));
    if spans.len() < list.len() {
        return refused(4, spans);
    }
    accepted(list.len() / 2, &list, spans)
}

/// Ascending with a gap of at least one entry, no end before its start, no number that reaches the entry count. All
/// numbers are whole numbers.
fn well_placed(list: &[u32], n: usize) -> bool {
    let numbers: Vec<i128> = list.iter().copied().map(i128::from).collect();
    let pairs: Vec<&[i128]> = numbers.chunks(2).collect();
    let gap = |next: &[i128], before: &[i128]| next[0] - before[1] - 1;
    numbers.iter().all(|&number| number < n as i128)
        && pairs.iter().all(|pair| pair[0] <= pair[1])
        && pairs.windows(2).all(|two| gap(two[1], two[0]) >= 1)
}

pub struct ToBitmap<'a> {
    pub spans: &'a [u32],
    pub n: usize,
    pub bitmap: &'a [u8],
}

/// The first code of 2, 5, 4, 18 that holds, else the bitmap as a scan's is written.
pub fn to_bitmap(call: &ToBitmap) -> Outcome<u8> {
    let ToBitmap { spans, n, bitmap } = *call;
    if n > 16_384 {
        return refused(2, bitmap);
    }
    if spans.len() % 2 != 0 {
        return refused(5, bitmap);
    }
    if bitmap.len() < n.div_ceil(8) {
        return refused(4, bitmap);
    }
    if !well_placed(spans, n) {
        return refused(18, bitmap);
    }
    let mut selected = vec![false; n];
    for pair in spans.chunks(2) {
        for i in pair[0]..=pair[1] {
            selected[i as usize] = true;
        }
    }
    selection(&selected, bitmap)
}
