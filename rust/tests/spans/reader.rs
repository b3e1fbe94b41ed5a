//! The second reader by itself, beside answers found by hand.

use crate::reader::spans::{from_bitmap, to_bitmap, FromBitmap, ToBitmap};

#[test]
fn spans_of_bitmaps() {
    let rows: [(&[u8], usize, &[u32]); 9] = [
        (&[], 0, &[]),
        (&[0xFF], 0, &[]),
        (&[0x00], 8, &[]),
        (&[0xFF], 8, &[0, 7]),
        (&[0xFF], 5, &[0, 4]),
        (&[0b0010_0000], 8, &[5, 5]),
        (&[0b0101_0101], 8, &[0, 0, 2, 2, 4, 4, 6, 6]),
        (&[0x80, 0x01, 0xFF], 16, &[7, 8]),
        (&[0b1110_0110, 0b1100_0001], 15, &[1, 2, 5, 8, 14, 14]),
    ];
    for (bitmap, n, list) in rows {
        let spans = &vec![99; list.len() + 1];
        let given = from_bitmap(&FromBitmap { bitmap, n, spans });
        assert_eq!((given.code, given.number), (0, list.len() as u32 / 2));
        assert_eq!(given.held, [list, &[99]].concat(), "{bitmap:x?}, n {n}");
        if let Some(spans) = spans.get(2..) {
            assert_eq!(from_bitmap(&FromBitmap { bitmap, n, spans }).code, 4);
        }
    }
}

/// What is selected, or the code and a place that is as it was.
#[test]
fn bitmaps_of_spans() {
    let rows: [(&[u32], usize, u32, &[u8]); 11] = [
        (&[], 0, 0, &[]),
        (&[], 9, 0, &[0x00, 0x00]),
        (&[0, 8], 9, 0, &[0xFF, 0x01]),
        (&[3, 3], 8, 0, &[0b1000]),
        (&[0, 2, 4, 5], 8, 0, &[0b0011_0111]),
        (&[0, 2, 3, 5], 8, 18, &[0xA5]),
        (&[0, 3, 3, 5], 8, 18, &[0xA5]),
        (&[4, 3], 8, 18, &[0xA5]),
        (&[0, 8], 8, 18, &[0xA5]),
        (&[0, 0], 0, 18, &[]),
        (&[0, u32::MAX, 1, 2], 8, 18, &[0xA5]),
    ];
    for (spans, n, code, held) in rows {
        let bitmap = &vec![0xA5; n.div_ceil(8)];
        let given = to_bitmap(&ToBitmap { spans, n, bitmap });
        let set: u32 = held.iter().map(|byte| byte.count_ones()).sum();
        let number = if code == 0 { set } else { 0 };
        assert_eq!((given.code, given.number), (code, number), "{spans:?}");
        assert_eq!(given.held, held, "{spans:?}");
    }
}
