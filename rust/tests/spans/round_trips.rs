//! The two operations undo each other.

use super::samples::{bitmap, list, COUNTS, DENSITIES, LARGE_COUNTS};
use crate::support::calls::Calls;

/// From a bitmap to its list and back: the same bytes, where the bits past n are 0, and those bits as 0 where not.
#[test]
fn bitmaps_and_back() {
    let mut calls = Calls::of_spans("bitmaps and back");
    for density in DENSITIES {
        for n in COUNTS.into_iter().chain(LARGE_COUNTS) {
            let mut bitmap = bitmap(density, n.div_ceil(8), &mut calls.random);
            let listed = calls.list_of(&bitmap, n, n + 1);
            let pairs = 2 * listed.number as usize;
            let marked = calls.bitmap_of(&listed.held[..pairs], n, bitmap.len());
            assert_eq!(marked.code, 0);
            let set: u32 = marked.held.iter().map(|byte| byte.count_ones()).sum();
            assert_eq!(marked.number, set);
            for past in n..8 * bitmap.len() {
                bitmap[past / 8] &= !(1 << (past % 8));
            }
            assert_eq!(marked.held, bitmap, "{density:?}, n {n}");
        }
    }
    calls.finish();
}

/// From a list to its bitmap and back: always the same list, whatever lies past the bitmap.
#[test]
fn lists_and_back() {
    let mut calls = Calls::of_spans("lists and back");
    for density in DENSITIES {
        for n in COUNTS.into_iter().chain(LARGE_COUNTS) {
            let spans = list(density, n, &mut calls.random);
            for later in [0, 1] {
                let marked = calls.bitmap_of(&spans, n, n.div_ceil(8) + later);
                let listed = calls.list_of(&marked.held, n, spans.len());
                let answer = (listed.code, 2 * listed.number as usize);
                assert_eq!(answer, (0, spans.len()), "{density:?}, n {n}");
                assert_eq!(listed.held, spans);
            }
        }
    }
    calls.finish();
}
