//! Pages cut and prolonged, and outputs of every length.

use super::layout::Layout;
use super::pages::{page, Kind, KINDS, LARGE_COUNTS, SMALL_COUNTS};
use crate::reader::calls::{Scan, Unpack};
use crate::reader::Unit;
use crate::support::calls::Calls;
use crate::support::lent::{Filled, FILLINGS};

/// A scan and an unpack of anything as a page: their codes.
pub fn read<L: Layout>(calls: &mut Calls, page: &[L::Unit], width: u32, n: usize) -> [u32; 2] {
    let filling = calls.random.pick(&FILLINGS);
    let scanned = calls.scan::<L>(&Scan {
        page,
        width,
        n,
        op: 5,
        a: 1,
        b: 0,
        bitmap: &vec![filling; n.div_ceil(8) + 1],
    });
    let unpacked = calls.unpack::<L>(&Unpack {
        page,
        width,
        n,
        entries: &vec![u32::filled(filling); n + 1],
    });
    [scanned.code, unpacked.code]
}

pub fn every_truncation_and_some_units_more<L: Layout>() {
    let mut calls = Calls::of::<L>("pages cut and prolonged");
    for width in 0..=32 {
        for n in (0..=20).chain(SMALL_COUNTS) {
            let whole = page::<L>(Kind::Random, width, n, &mut calls.random);
            let mut long = whole.clone();
            long.extend([0, 0, 0xFF, 1, 0, 0, 0, 0, 0].map(L::Unit::of));
            for len in 0..=long.len() {
                let code = match len {
                    _ if len < whole.len() => 5,
                    _ if len > whole.len() => 6,
                    _ => 0,
                };
                assert_eq!(read::<L>(&mut calls, &long[..len], width, n), [code; 2]);
            }
        }
    }
    calls.finish();
}

/// Each place from none to some more than enough, under every filling.
pub fn outputs_short_exact_and_long<L: Layout>() {
    let mut calls = Calls::of::<L>("outputs of every length");
    for width in 0..=32 {
        for n in SMALL_COUNTS {
            let page = page::<L>(Kind::Random, width, n, &mut calls.random);
            for filling in FILLINGS {
                scans_with_room::<L>(&mut calls, &page, width, n, filling);
                unpacks_with_room::<L>(&mut calls, &page, width, n, filling);
            }
        }
    }
    calls.finish();
}

fn scans_with_room<L: Layout>(
    calls: &mut Calls,
    page: &[L::Unit],
    width: u32,
    n: usize,
    filling: u8,
) {
    for room in 0..n.div_ceil(8) + 10 {
        let scanned = calls.scan::<L>(&Scan {
            page,
            width,
            n,
            op: 4,
            a: i64::from(width),
            b: 0,
            bitmap: &vec![filling; room],
        });
        assert_eq!(scanned.code, if room < n.div_ceil(8) { 4 } else { 0 });
    }
}

fn unpacks_with_room<L: Layout>(
    calls: &mut Calls,
    page: &[L::Unit],
    width: u32,
    n: usize,
    filling: u8,
) {
    for room in [0, n.saturating_sub(1), n, n + 1, n + 10] {
        let unpacked = calls.unpack::<L>(&Unpack {
            page,
            width,
            n,
            entries: &vec![u32::filled(filling); room],
        });
        assert_eq!(unpacked.code, if room < n { 4 } else { 0 });
    }
}

pub fn unpacks_at_random<L: Layout>() {
    let mut calls = Calls::of::<L>("unpacks at random");
    for _ in 0..60_000 {
        let random = &mut calls.random;
        let width = random.below(33) as u32;
        let n = random.below(200);
        let kind = random.pick(&KINDS);
        let page = page::<L>(kind, width, n, random);
        let entries = vec![random.bits() as u32; n + random.below(4)];
        calls.unpack::<L>(&Unpack {
            page: &page,
            width,
            n,
            entries: &entries,
        });
    }
    for n in LARGE_COUNTS {
        for width in 0..=32 {
            let page = page::<L>(Kind::Random, width, n, &mut calls.random);
            let entries = vec![0x5A5A_5A5A; n + 3];
            calls.unpack::<L>(&Unpack {
                page: &page,
                width,
                n,
                entries: &entries,
            });
        }
    }
    calls.finish();
}
