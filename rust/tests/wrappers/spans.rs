//! Spans: what they give, every refusal, and arguments beyond all limits; and a bitmap's own spans, beside those of the
//! library.

use std::ops::RangeInclusive;

use cahermisk::spans::{from_bitmap, from_bitmap_to_vec, to_bitmap};
use cahermisk::{Bitmap, Refusal, MAX_ENTRIES};

use crate::bitmaps::{bitmap, lengths, selections};

#[test]
fn lists_there_and_back() {
    let list = [1, 2, 5, 8, 14, 14];
    assert_eq!(
        from_bitmap_to_vec(&[0b1110_0110, 0b1100_0001, 0xFF], 15),
        Ok(list.to_vec())
    );
    let mut bitmap = [0xA5; 3];
    assert_eq!(to_bitmap(&list, 15, &mut bitmap), Ok(7));
    assert_eq!(bitmap, [0b1110_0110, 0b0100_0001, 0xA5]);
    let mut places = [99; 7];
    assert_eq!(from_bitmap(&bitmap, 15, &mut places), Ok(3));
    assert_eq!(places, [1, 2, 5, 8, 14, 14, 99]);
}

#[test]
fn bitmaps_refuse() {
    let short = Refusal::InputEndsTooEarly;
    assert_eq!(from_bitmap_to_vec(&[0xFF], 9), Err(short));
    let mut places = [99; 1];
    assert_eq!(from_bitmap(&[0xFF], 9, &mut places), Err(short));
    let no_room = Refusal::OutputTooShort;
    assert_eq!(from_bitmap(&[0xFF], 8, &mut places), Err(no_room));
    assert_eq!(places, [99]);
}

#[test]
fn lists_refuse() {
    let (odd, misplaced) = (Refusal::InputEndsTooEarly, Refusal::SpansMisplaced);
    let rows: [(&[u32], usize, Refusal); 7] = [
        (&[0], 1, odd),
        (&[4, 3, 9], 0, odd),
        (&[4, 3], 0, Refusal::OutputTooShort),
        (&[4, 3], 1, misplaced),
        (&[0, 2, 3, 5], 1, misplaced),
        (&[0, 8], 1, misplaced),
        (&[0, u32::MAX, 1, 2], 1, misplaced),
    ];
    for (list, room, refusal) in rows {
        let mut bitmap = vec![0xA5; room];
        assert_eq!(to_bitmap(list, 8, &mut bitmap), Err(refusal), "{list:?}");
        assert_eq!(bitmap, vec![0xA5; room], "{list:?}");
    }
}

/// Huge counts are refused, and no place is made for them first. A long list is not.
#[test]
fn huge_arguments_are_refused() {
    let many = Refusal::TooManyEntries;
    for n in [MAX_ENTRIES + 1, (1 << 32) + 9, usize::MAX] {
        assert_eq!(from_bitmap_to_vec(&[0; 2], n), Err(many));
        assert_eq!(from_bitmap(&[], n, &mut []), Err(many));
        assert_eq!(to_bitmap(&[4, 3, 2], n, &mut []), Err(many));
        assert_eq!(Bitmap::from_spans([0..=1], n), Err(many));
    }
    let list: Vec<u32> = (0..40_000).collect();
    let refused = to_bitmap(&list, MAX_ENTRIES, &mut [0; 2048]);
    assert_eq!(refused, Err(Refusal::SpansMisplaced));
}

/// Empty slices are answered, though no memory stands behind them.
#[test]
fn empty_slices() {
    assert_eq!(from_bitmap(&[], 0, &mut []), Ok(0));
    assert_eq!(to_bitmap(&[], 0, &mut []), Ok(0));
    assert_eq!(from_bitmap_to_vec(&[], 0), Ok(vec![]));
}

/// A bitmap's own spans are those that the library lists, and make the bitmap again.
#[test]
fn a_bitmap_tells_its_spans() {
    for selection in lengths().flat_map(selections) {
        let bitmap = bitmap(&selection);
        let n = selection.len();
        let list = from_bitmap_to_vec(bitmap.as_bytes(), n).expect("within the limits");
        let span = |pair: &[u32]| pair[0] as usize..=pair[1] as usize;
        let spans: Vec<RangeInclusive<usize>> = list.chunks(2).map(span).collect();
        assert_eq!(bitmap.spans().collect::<Vec<_>>(), spans);
        assert!(bitmap.spans().flatten().eq(bitmap.selected()));
        assert_eq!(Bitmap::from_spans(spans, n), Ok(bitmap));
    }
}

/// How many are to come is told between two bounds, and after the last none comes.
#[test]
fn spans_still_to_come() {
    for selection in lengths().flat_map(selections) {
        let bitmap = bitmap(&selection);
        let count = bitmap.spans().count();
        let mut spans = bitmap.spans();
        for left in (0..=count).rev() {
            let (least, most) = spans.size_hint();
            assert!(least <= left && most.is_some_and(|most| left <= most));
            assert_eq!(spans.next().is_some(), left > 0);
        }
        assert_eq!(spans.size_hint(), (0, Some(0)));
        assert_eq!(spans.next(), None);
    }
}

/// Ranges that no list of spans can hold, and more of them than there may be: refused, and of an endless row not all
/// are asked for.
#[test]
fn ranges_refuse() {
    let misplaced = Err(Refusal::SpansMisplaced);
    let mut used = 3..=3;
    assert_eq!(used.next(), Some(3));
    let huge = (1 << 32) + 3;
    for range in [used, RangeInclusive::new(4, 3), 9..=10, huge..=huge] {
        assert_eq!(Bitmap::from_spans([0..=1, range.clone()], 10), misplaced);
        assert_eq!(Bitmap::from_spans([range], 10), misplaced);
    }
    assert_eq!(
        Bitmap::from_spans([0..=0, usize::MAX..=usize::MAX], 10),
        misplaced
    );
    let every_other = (0..).step_by(2).map(|i| i..=i);
    assert_eq!(Bitmap::from_spans(every_other, MAX_ENTRIES), misplaced);
    let every_other = (0..MAX_ENTRIES).step_by(2).map(|i| i..=i);
    let most = Bitmap::from_spans(every_other, MAX_ENTRIES).map(|bitmap| bitmap.count());
    assert_eq!(most, Ok(MAX_ENTRIES / 2));
}
