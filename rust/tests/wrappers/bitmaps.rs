//! What a bitmap does by itself, beside a list of bools, for all small lengths and for the largest.

use std::collections::HashSet;

use cahermisk::{horizontal, Bitmap, Comparison, Refusal, MAX_ENTRIES};

use crate::random::Random;

/// Lengths below three words, and those about the limit.
pub fn lengths() -> impl Iterator<Item = usize> {
    (0..200).chain([16_319, 16_320, 16_383, MAX_ENTRIES])
}

/// Selections of so many entries: none, all, one in a hundred, and one in two.
pub fn selections(n: usize) -> Vec<Vec<bool>> {
    let mut random = Random::new("bitmaps");
    let seldom = (0..n).map(|_| random.once_in(100)).collect();
    let often = (0..n).map(|_| random.once_in(2)).collect();
    vec![vec![false; n], vec![true; n], seldom, often]
}

/// The bytes of a bitmap, bit by bit.
fn bytes(selection: &[bool]) -> Vec<u8> {
    let byte = |bits: &[bool]| (0..).zip(bits).map(|(i, &bit)| u8::from(bit) << i).sum();
    selection.chunks(8).map(byte).collect()
}

/// The bitmap of a selection as a scan gives it.
pub fn bitmap(selection: &[bool]) -> Bitmap {
    let entries: Vec<u32> = selection.iter().copied().map(u32::from).collect();
    let page = horizontal::pack_to_vec(&entries, 5).expect("entries of 5 bits");
    horizontal::scan_to_bitmap(&page, 5, entries.len(), Comparison::equal(1)).expect("good")
}

/// Holds every call that tells of a bitmap to the selection.
fn tells(bitmap: &Bitmap, selection: &[bool]) {
    let n = selection.len();
    let numbers: Vec<usize> = (0..n).filter(|&i| selection[i]).collect();
    assert_eq!((bitmap.len(), bitmap.count()), (n, numbers.len()));
    assert_eq!(bitmap.is_empty(), n == 0);
    assert_eq!(bitmap.as_bytes(), bytes(selection));
    assert_eq!(AsRef::<[u8]>::as_ref(bitmap), bitmap.as_bytes());
    assert!((0..n).all(|i| bitmap.contains(i) == selection[i]));
    assert_eq!(bitmap.selected().collect::<Vec<_>>(), numbers);
    assert_eq!(bitmap.into_iter().collect::<Vec<_>>(), numbers);
    let backwards: Vec<usize> = bitmap.selected().rev().collect();
    assert!(backwards.iter().eq(numbers.iter().rev()));
}

#[test]
fn a_bitmap_tells_its_selection() {
    for selection in lengths().flat_map(selections) {
        tells(&bitmap(&selection), &selection);
    }
}

/// However numbers are taken from the two ends, each is given once, and the length is always right.
#[test]
fn numbers_from_both_ends() {
    let mut random = Random::new("both ends");
    for selection in lengths().flat_map(selections) {
        let bitmap = bitmap(&selection);
        let (mut front, mut back) = (Vec::new(), Vec::new());
        let mut selected = bitmap.selected();
        for left in (0..bitmap.count()).rev() {
            match random.once_in(2) {
                true => front.extend(selected.next()),
                false => back.extend(selected.next_back()),
            }
            assert_eq!((selected.len(), selected.size_hint().1), (left, Some(left)));
        }
        assert_eq!((selected.next(), selected.next_back()), (None, None));
        assert_eq!((selected.next(), selected.len()), (None, 0));
        front.extend(back.iter().rev());
        assert!(front.into_iter().eq(bitmap.selected()));
    }
}

#[test]
fn bytes_become_a_bitmap() {
    for selection in lengths().flat_map(selections) {
        let read = Bitmap::from_bytes(&bytes(&selection), selection.len());
        assert_eq!(read.as_ref(), Ok(&bitmap(&selection)));
        tells(&read.expect("good bytes"), &selection);
    }
}

#[test]
fn bytes_that_are_no_bitmap() {
    for n in lengths() {
        let good = bytes(&vec![true; n]);
        let longer = [&good[..], &[0]].concat();
        assert_eq!(Bitmap::from_bytes(&longer, n), Err(Refusal::InputLeftOver));
        let Some((_, shorter)) = good.split_last() else {
            continue;
        };
        let ended = Err(Refusal::InputEndsTooEarly);
        assert_eq!(Bitmap::from_bytes(shorter, n), ended);
        for unused in n..8 * good.len() {
            let mut bytes = good.clone();
            bytes[unused / 8] |= 1 << (unused % 8);
            let refused = Err(Refusal::UnusedBitsNot0);
            assert_eq!(Bitmap::from_bytes(&bytes, n), refused);
        }
    }
    for n in [MAX_ENTRIES + 1, usize::MAX] {
        let many = Err(Refusal::TooManyEntries);
        assert_eq!(Bitmap::from_bytes(&[0; MAX_ENTRIES / 8 + 1], n), many);
    }
}

/// A selection with entries more, up to `n`, none of them selected.
fn lengthened(selection: &[bool], n: usize) -> Vec<bool> {
    let more = vec![false; n.saturating_sub(selection.len())];
    [selection, &more].concat()
}

/// Every way to write an operator gives the same; it is held to the operator on bools, over the longer of
/// the two.
fn and_or(a: &[bool], b: &[bool]) {
    let (left, right) = (bitmap(a), bitmap(b));
    let (a, b) = (lengthened(a, b.len()), lengthened(b, a.len()));
    let both: Vec<bool> = (0..a.len()).map(|i| a[i] & b[i]).collect();
    let either: Vec<bool> = (0..a.len()).map(|i| a[i] | b[i]).collect();
    let (mut and, mut or) = (left.clone(), left.clone());
    and &= &right;
    or |= right.clone();
    for bitmap in [
        &left & &right,
        left.clone() & &right,
        &left & right.clone(),
        and,
    ] {
        tells(&bitmap, &both);
    }
    for bitmap in [left.clone() | right.clone(), &left | &right, or] {
        tells(&bitmap, &either);
    }
}

#[test]
fn selections_joined() {
    for n in lengths().step_by(3) {
        for a in selections(n) {
            let others = [n, n / 2, n.saturating_sub(1), 130];
            for b in others.into_iter().flat_map(selections) {
                and_or(&a, &b);
            }
        }
    }
}

#[test]
fn all_other_entries() {
    for selection in lengths().flat_map(selections) {
        let bitmap = bitmap(&selection);
        let others: Vec<bool> = selection.iter().map(|bit| !bit).collect();
        tells(&!&bitmap, &others);
        assert_eq!(!!bitmap.clone(), bitmap);
    }
}

/// Bitmaps are equal, and have one place in a set, exactly if they have the same entries selected of as
/// many.
#[test]
fn equal_bitmaps_have_equal_hashes() {
    let mut set = HashSet::new();
    let all: Vec<_> = (0..40).flat_map(selections).collect();
    let different: HashSet<_> = all.iter().collect();
    for selection in &all {
        let bitmap = bitmap(selection);
        let made = Bitmap::from_bytes(bitmap.as_bytes(), bitmap.len()).expect("a bitmap's bytes");
        set.extend([!!made.clone(), &made | &made, made, bitmap]);
    }
    assert_eq!(set.len(), different.len());
}
