//! The largest and the smallest calls, and calls beyond all limits.

use std::fmt::Debug;

use cahermisk::{Comparison, Refusal, MAX_ENTRIES, MAX_WIDTH};

use crate::layout::{in_each_layout, Layout};

in_each_layout! {
    huge_arguments_are_refused
    the_largest_page
    empty_slices
}

/// Huge counts and widths are refused, and no place is made for them first.
fn huge_arguments_are_refused<T>(layout: &Layout<T>) {
    let page = layout.page;
    for n in [MAX_ENTRIES + 1, (1 << 32) + 5, usize::MAX] {
        let less = Comparison::less(3);
        let many = Refusal::TooManyEntries;
        assert_eq!((layout.scan_to_bitmap)(page, 3, n, less), Err(many));
        assert_eq!((layout.unpack_to_vec)(page, 3, n), Err(many));
        assert_eq!((layout.scan)(page, 3, n, less, &mut []), Err(many));
        assert_eq!((layout.unpack)(page, 3, n, &mut []), Err(many));
        let wide = Refusal::WidthAboveLimit;
        assert_eq!((layout.unpack_to_vec)(page, u32::MAX, n), Err(wide));
        assert_eq!((layout.scan_to_bitmap)(page, 33, n, less), Err(wide));
    }
}

/// The greatest page there is, there and back.
fn the_largest_page<T>(layout: &Layout<T>) {
    let entries: Vec<u32> = (0..MAX_ENTRIES as u32)
        .map(|i| i.wrapping_mul(0x9E37_79B9))
        .collect();
    let page = (layout.pack_to_vec)(&entries, MAX_WIDTH).expect("within the limits");
    assert_eq!(size_of_val(&page[..]), layout.largest);
    let unpacked = (layout.unpack_to_vec)(&page, MAX_WIDTH, MAX_ENTRIES);
    assert_eq!(unpacked.as_ref(), Ok(&entries));
    let above = Comparison::greater(1 << 31);
    let selection = (layout.scan_to_bitmap)(&page, MAX_WIDTH, MAX_ENTRIES, above).expect("good");
    let expected: Vec<usize> = (0..MAX_ENTRIES).filter(|&i| entries[i] > 1 << 31).collect();
    assert_eq!(selection.selected().collect::<Vec<_>>(), expected);
}

/// Empty slices are answered at every width, though no memory stands behind them.
fn empty_slices<T: Debug + PartialEq>(layout: &Layout<T>) {
    for width in 0..=MAX_WIDTH {
        let less = Comparison::less(3);
        assert_eq!((layout.scan)(&[], width, 0, less, &mut []), Ok(0));
        assert_eq!((layout.unpack)(&[], width, 0, &mut []), Ok(0));
        assert_eq!((layout.pack)(&[], width, &mut []), Ok(0));
        assert_eq!((layout.unpack_to_vec)(&[], width, 0), Ok(vec![]));
        assert_eq!((layout.pack_to_vec)(&[], width), Ok(vec![]));
    }
}
