//! Widths, counts and operators within and beyond the limits, also ones that look good once they are cut.

use super::layout::Layout;
use crate::reader::calls::{Pack, Scan, Unpack};
use crate::support::calls::Calls;
use crate::support::lent::Filled;

const COUNTS: [usize; 17] = [
    0,
    1,
    7,
    8,
    9,
    63,
    64,
    65,
    127,
    128,
    129,
    1000,
    16_383,
    16_384,
    16_385,
    (1 << 32) + 5,
    usize::MAX,
];

fn widths() -> impl Iterator<Item = u32> {
    (0..=33).chain([64, 255, 256 + 3, 1 << 16, 1 << 31, u32::MAX])
}

fn operators() -> impl Iterator<Item = u32> {
    (0..=9).chain([256 + 5, 1 << 31, u32::MAX])
}

/// Rooms and page lengths that are right for the numbers given, and for the same numbers cut to 8 or 32 bits.
fn cut(width: u32, n: usize) -> Vec<(u32, usize)> {
    let mut shapes = Vec::new();
    for width in [width, width & 0xFF, width & 0x3F] {
        for n in [n, n & 0xFFFF_FFFF, n & 0x3FFF] {
            if width <= 64 && n <= 16_385 && !shapes.contains(&(width, n)) {
                shapes.push((width, n));
            }
        }
    }
    shapes.push((0, 0));
    shapes
}

pub fn scans_and_unpacks<L: Layout>() {
    let mut calls = Calls::of::<L>("arguments about the limits");
    for width in widths() {
        for n in COUNTS {
            for (page_width, page_n) in cut(width, n) {
                let page = L::page_of_zeros(page_width, page_n);
                let entries = vec![7; page_n];
                calls.unpack::<L>(&Unpack {
                    page: &page,
                    width,
                    n,
                    entries: &entries,
                });
                let bitmap = vec![0xA5; page_n.div_ceil(8)];
                scans::<L>(&mut calls, &page, width, n, &bitmap);
            }
        }
    }
    calls.finish();
}

/// All operators; of the large pages the edges and one more alone, which is enough and quick.
fn scans<L: Layout>(calls: &mut Calls, page: &[L::Unit], width: u32, n: usize, bitmap: &[u8]) {
    let chosen = calls.random.below(8) as u32;
    for op in operators() {
        if n > 1000 && op < 7 && op != chosen {
            continue;
        }
        calls.scan::<L>(&Scan {
            page,
            width,
            n,
            op,
            a: 0,
            b: 0,
            bitmap,
        });
    }
}

pub fn packs<L: Layout>() {
    let mut calls = Calls::of::<L>("packs about the limits");
    for width in widths() {
        for n in [0, 1, 9, 16_383, 16_384, 16_385] {
            for entry in [0, 1, u32::MAX] {
                for (page_width, _) in cut(width, 0) {
                    let room = L::page_of_zeros(page_width, n).len();
                    let page = vec![L::Unit::filled(0xA5); room];
                    calls.pack::<L>(&Pack {
                        entries: &vec![entry; n],
                        width,
                        page: &page,
                    });
                }
            }
        }
    }
    calls.finish();
}
