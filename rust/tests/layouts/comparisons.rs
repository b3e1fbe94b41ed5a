//! Good pages under all comparisons.

use super::layout::Layout;
use super::pages::{constants, page, Kind, KINDS, LARGE_COUNTS, SMALL_COUNTS};
use crate::reader::calls::Scan;
use crate::reader::Unit;
use crate::support::calls::Calls;
use crate::support::lent::FILLINGS;

fn read<L: Layout>(page: &[L::Unit], width: u32, n: usize) -> Vec<u32> {
    L::read(page, width, n).expect("a good page")
}

/// All operators with all constants: each a for operators 0 to 5, each pair for 6 and 7.
fn compare_in_all_ways<L: Layout>(calls: &mut Calls, page: &[L::Unit], width: u32, n: usize) {
    let constants = constants(&read::<L>(page, width, n), width, &mut calls.random);
    let bitmap = vec![FILLINGS[n % FILLINGS.len()]; n.div_ceil(8) + n % 3];
    for &a in &constants {
        for &b in &constants {
            let operators = if a == b { 0..=7 } else { 6..=7 };
            for op in operators {
                calls.scan::<L>(&Scan {
                    page,
                    width,
                    n,
                    op,
                    a,
                    b,
                    bitmap: &bitmap,
                });
            }
        }
    }
}

pub fn small_pages_under_every_comparison<L: Layout>() {
    let mut calls = Calls::of::<L>("scans of small pages");
    for width in 0..=32 {
        for n in SMALL_COUNTS {
            for kind in KINDS {
                let page = page::<L>(kind, width, n, &mut calls.random);
                compare_in_all_ways::<L>(&mut calls, &page, width, n);
            }
        }
    }
    calls.finish();
}

pub fn large_pages<L: Layout>() {
    let mut calls = Calls::of::<L>("scans of large pages");
    for width in 0..=32 {
        for n in LARGE_COUNTS {
            let page = page::<L>(Kind::Random, width, n, &mut calls.random);
            let entries = read::<L>(&page, width, n);
            for op in 0..=7 {
                let constants = constants(&entries, width, &mut calls.random);
                let bitmap = calls.random.units(n.div_ceil(8) + 3);
                let call = Scan {
                    page: &page,
                    width,
                    n,
                    op,
                    a: calls.random.pick(&constants),
                    b: calls.random.pick(&constants),
                    bitmap: &bitmap,
                };
                calls.scan::<L>(&call);
            }
        }
    }
    calls.finish();
}

/// Operators 0 to 5 ignore b: any b gives what b = 0 gives.
pub fn operators_0_to_5_ignore_b<L: Layout>() {
    let mut calls = Calls::of::<L>("scans with a b to ignore");
    let page = page::<L>(Kind::Ascending, 7, 100, &mut calls.random);
    let bitmap = [0xA5; 13];
    for op in 0..=5 {
        for a in [-1, 0, 50, 99, 127, 128] {
            let mut with_b = |b| {
                calls.scan::<L>(&Scan {
                    page: &page,
                    width: 7,
                    n: 100,
                    op,
                    a,
                    b,
                    bitmap: &bitmap,
                })
            };
            let plain = with_b(0);
            for b in [i64::MIN, -1, 1, a, 127, i64::MAX] {
                assert_eq!(with_b(b), plain, "operator {op}, a {a}, b {b}");
            }
        }
    }
    calls.finish();
}

/// Any mixture of widths, counts, operators, constants, good and faulty pages.
pub fn scans_at_random<L: Layout>() {
    let mut calls = Calls::of::<L>("scans at random");
    for _ in 0..120_000 {
        let random = &mut calls.random;
        let width = random.below(33) as u32;
        let n = random.below(200);
        let kind = random.pick(&KINDS);
        let mut page = page::<L>(kind, width, n, random);
        let constants = constants(&read::<L>(&page, width, n), width, random);
        if random.once_in(8) {
            let len = random.below(page.len() + 3);
            page.resize(len, L::Unit::of(0));
        }
        if let (true, Some(last)) = (random.once_in(8), page.last_mut()) {
            *last = L::Unit::of(random.bits());
        }
        let room = (n.div_ceil(8) + random.below(4)).saturating_sub(random.below(2));
        let bitmap = random.units(room);
        let call = Scan {
            page: &page,
            width,
            n,
            op: random.below(if n % 64 == 0 { 9 } else { 8 }) as u32,
            a: random.pick(&constants),
            b: random.pick(&constants),
            bitmap: &bitmap,
        };
        calls.scan::<L>(&call);
    }
    calls.finish();
}
