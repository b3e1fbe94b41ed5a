//! Counts and operators within and beyond the limits, and outputs of every length.

use super::layout::Signed;
use crate::reader::signed::{Scan, Unpack};
use crate::support::calls::Calls;
use crate::support::lent::{Filled, FILLINGS};

/// Counts and operators that look good once they are cut are refused: the column and the rooms are those of the
/// numbers so cut.
pub fn huge_arguments<C: Signed>() {
    let mut calls = Calls::of_signed::<C>("arguments about the limits");
    for n in [0, 1, 9, 34, 16_383, 16_384] {
        let column = C::of(&vec![-5; n]);
        for more in [0, 1, 1 << 14, 1 << 16, 1 << 32, usize::MAX - 20_000] {
            let asked = n + more;
            let room = asked & 0xFFFF;
            calls.unpack_signed(&Unpack {
                column: &column,
                n: asked,
                entries: &vec![7; room],
            });
            for op in [0, 7, 8, 9, 256 + 5, 1 << 31, u32::MAX] {
                let scanned = calls.scan_signed(&Scan {
                    column: &column,
                    n: asked,
                    op,
                    a: 0,
                    b: 0,
                    bitmap: &vec![0xA5; room.div_ceil(8)],
                });
                let first = match () {
                    _ if asked > 16_384 => 2,
                    _ if op > 7 => 3,
                    _ if more == 0 => 0,
                    _ => column.read(asked).err().unwrap_or(0),
                };
                assert_eq!(scanned.code, first, "n {asked}, operator {op}");
            }
        }
    }
    calls.finish();
}

/// Each place from none to some more than enough, under every filling.
pub fn outputs_short_exact_and_long<C: Signed>() {
    let mut calls = Calls::of_signed::<C>("outputs of every length");
    for (i, &n) in C::COUNTS.iter().enumerate() {
        let column = C::any(i as u32 % 33, n, &mut calls.random);
        for filling in FILLINGS {
            for room in 0..n.div_ceil(8) + 10 {
                let scanned = calls.scan_signed(&Scan {
                    column: &column,
                    n,
                    op: 4,
                    a: 0,
                    b: 0,
                    bitmap: &vec![filling; room],
                });
                assert_eq!(scanned.code, if room < n.div_ceil(8) { 4 } else { 0 });
            }
            for room in [0, n.saturating_sub(1), n, n + 1, n + 10] {
                let unpacked = calls.unpack_signed(&Unpack {
                    column: &column,
                    n,
                    entries: &vec![i32::filled(filling); room],
                });
                assert_eq!(unpacked.code, if room < n { 4 } else { 0 });
            }
        }
    }
    calls.finish();
}
