//! Codes in their order: each before all that come after it, and counts and lists beyond all limits.

use crate::support::calls::Calls;

/// Counts above the limit. They are not cut: the lower half of one is a small number.
const TOO_MANY: [usize; 5] = [16_385, 1 << 16, 1 << 32, (1 << 32) + 9, usize::MAX];

#[test]
fn spans_of_bitmaps() {
    let mut calls = Calls::of_spans("order of bitmaps");
    for n in TOO_MANY {
        for (bytes, room) in [(0, 0), (2, 0), (2, 20), (2049, 16_386)] {
            assert_eq!(calls.list_of(&vec![0xFF; bytes], n, room).code, 2);
        }
    }
    for n in [1usize, 8, 9, 16, 64, 65, 16_383, 16_384] {
        let exact = n.div_ceil(8);
        for bytes in [0, exact / 2, exact - 1] {
            for room in [0, 1, 2, n + 1] {
                let bitmap = vec![0xFF; bytes];
                assert_eq!(calls.list_of(&bitmap, n, room).code, 5, "n {n}");
            }
        }
        for room in [0, 1] {
            assert_eq!(calls.list_of(&vec![0xFF; exact], n, room).code, 4);
            assert_eq!(calls.list_of(&vec![0x00; exact], n, room).code, 0);
        }
    }
    for bitmap in [&[][..], &[0xFF]] {
        assert_eq!(calls.list_of(bitmap, 0, 0).code, 0);
    }
    calls.finish();
}

#[test]
fn bitmaps_of_spans() {
    let mut calls = Calls::of_spans("order of lists");
    let odd = &[4, 3, 2][..];
    for n in TOO_MANY {
        for spans in [odd, &[0, 1], &[1, 0], &[]] {
            for room in [0, 2, 2049] {
                assert_eq!(calls.bitmap_of(spans, n, room).code, 2);
            }
        }
    }
    for n in [0usize, 1, 8, 9, 16_384] {
        let exact = n.div_ceil(8);
        for room in [0, exact, exact + 1] {
            for spans in [odd, &[0], &[0, 0, 2], &[u32::MAX]] {
                assert_eq!(calls.bitmap_of(spans, n, room).code, 5, "n {n}");
            }
        }
        for spans in [&[1, 0][..], &[0, 1], &[]] {
            for room in 0..exact.min(9) {
                assert_eq!(calls.bitmap_of(spans, n, room).code, 4, "n {n}");
            }
        }
        assert_eq!(calls.bitmap_of(&[1, 0], n, exact).code, 18);
        assert_eq!(calls.bitmap_of(&[], n, exact).code, 0);
    }
    calls.finish();
}

/// A list has no limit of its own: it cannot ascend below n, and is refused for that.
#[test]
fn long_lists() {
    let mut calls = Calls::of_spans("long lists");
    for len in [16_384, 16_386, 32_768, 40_000] {
        let spans: Vec<u32> = (0..len / 2).flat_map(|i| [2 * i, 2 * i]).collect();
        let code = if len > 16_384 { 18 } else { 0 };
        assert_eq!(calls.bitmap_of(&spans, 16_384, 2048).code, code);
        assert_eq!(calls.bitmap_of(&spans, 16_384, 2047).code, 4);
        assert_eq!(calls.bitmap_of(&spans[1..], 16_384, 2048).code, 5);
        assert_eq!(calls.bitmap_of(&spans, 0, 0).code, 18);
        let same = vec![3; len as usize];
        assert_eq!(calls.bitmap_of(&same, 16_384, 2048).code, 18);
    }
    calls.finish();
}
