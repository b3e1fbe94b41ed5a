//! Where several codes could be given, the first is: 1, 2, 3, 4, and then the first fault in reading order.

use crate::layouts::lengths::read;
use crate::reader::calls::{Scan, Unpack};
use crate::reader::runs::Runs;
use crate::support::calls::Calls;
use crate::support::spelling::spelled;

/// Streams of 9 entries of width 3 with a fault, and its code. Where one of them has a second fault, that comes
/// later in reading order.
const FAULTY: [(&[u8], u32); 16] = [
    (&[], 5),
    (&[0x80], 5),
    (&[0x80, 0x80, 0x80, 0x80], 5),
    (&[0x80, 0x80, 0x80, 0x80, 0x10], 9),
    (&[0xFF, 0xFF, 0xFF, 0xFF, 0xFF], 9),
    (&[0x00], 10),
    (&[0x01, 0xFF], 10),
    (&[0x80, 0x80, 0x80, 0x80, 0x00], 10),
    (&[0x14], 11),
    (&[0x14, 0x08], 11),
    (&[0x07, 0x00], 11),
    (&[0xFF, 0xFF, 0xFF, 0xFF, 0x0F], 11),
    (&[0x05, 0x00, 0x00, 0x00, 0x00, 0x00], 5),
    (&[0x12], 5),
    (&[0x12, 0x08], 8),
    (&[0x10, 0x07, 0x02, 0x08, 0xFF], 8),
];

#[test]
fn faulty_streams_under_any_set_of_faulty_arguments() {
    let mut calls = Calls::of::<Runs>("codes in order");
    for (page, in_stream) in FAULTY {
        for set in 0..16u32 {
            let [width, count, operator, short] = [1, 2, 4, 8].map(|fault| set & fault != 0);
            let n = if count { 16_385 } else { 9 };
            let enough = if count { 2049 } else { 2 };
            let first = |faults: &[(bool, u32)]| {
                let found = faults.iter().find(|(fault, _)| *fault);
                found.map_or(in_stream, |&(_, code)| code)
            };
            let scanned = calls.scan::<Runs>(&Scan {
                page,
                width: if width { 33 } else { 3 },
                n,
                op: if operator { 8 } else { 2 },
                a: 3,
                b: 0,
                bitmap: &vec![0xA5; enough - usize::from(short)],
            });
            let code = first(&[(width, 1), (count, 2), (operator, 3), (short, 4)]);
            assert_eq!(scanned.code, code, "scan of {page:02x?}, faults {set}");
            let unpacked = calls.unpack::<Runs>(&Unpack {
                page,
                width: if width { 33 } else { 3 },
                n,
                entries: &vec![99; n - usize::from(short)],
            });
            let code = first(&[(width, 1), (count, 2), (short, 4)]);
            assert_eq!(unpacked.code, code, "unpack of {page:02x?}, faults {set}");
        }
    }
    calls.finish();
}

/// Headers of any 32 bits in all their spellings: a number cut to fewer bits would look like a short run.
#[test]
fn headers_that_look_short_once_they_are_cut() {
    let mut calls = Calls::of::<Runs>("headers that look short once they are cut");
    for width in [0, 1, 8, 32] {
        let body = vec![0; 4 * 8];
        for high in [8, 14, 16, 21, 24, 28, 29, 30, 31] {
            for low in [2, 3, 16, 17] {
                let h = (1u64 << high) + low;
                for bytes in h.ilog2() as usize / 7 + 1..=5 {
                    let mut page = spelled(h, bytes);
                    page.extend(&body);
                    let [scanned, _] = read::<Runs>(&mut calls, &page, width, 8);
                    assert_eq!(scanned, 11, "header {h:#x}");
                }
            }
        }
    }
    calls.finish();
}

/// A value has all its bytes, and is below 2^width.
#[test]
fn values_of_each_width() {
    let mut calls = Calls::of::<Runs>("values of each width");
    for width in 1..=32u32 {
        for value in (0..33).map(|k| 1u64 << k).flat_map(|x| [x - 1, x]) {
            let mut page = vec![0x06];
            page.extend(&value.to_le_bytes()[..width.div_ceil(8) as usize]);
            let kept = value & ((1 << (8 * width.div_ceil(8))) - 1);
            let code = if kept >= 1 << width { 8 } else { 0 };
            assert_eq!(read::<Runs>(&mut calls, &page, width, 3), [code; 2]);
            page.pop();
            assert_eq!(read::<Runs>(&mut calls, &page, width, 3), [5; 2]);
        }
    }
    calls.finish();
}
