//! Good columns under all comparisons.

use super::layout::{entries, Signed};
use crate::reader::signed::Scan;
use crate::support::calls::Calls;
use crate::support::lent::FILLINGS;
use crate::support::random::Random;

pub const LARGE_COUNTS: [usize; 5] = [1000, 2049, 4097, 16_383, 16_384];

/// Constants where a comparison may go wrong: the ends of all number ranges on the way, one of the column's
/// entries with its neighbours, and numbers that look like that entry once they are cut.
pub fn constants(entries: &[i32], random: &mut Random) -> Vec<i64> {
    let x = match entries {
        [] => 0,
        some => i64::from(random.pick(some)),
    };
    let mut all = vec![i64::MIN, i64::MIN + 1, -1, 0, 1, i64::MAX - 1, i64::MAX];
    for end in [
        i64::from(i32::MIN),
        i64::from(i32::MAX),
        1 << 32,
        -(1 << 32),
    ] {
        all.extend([end - 1, end, end + 1]);
    }
    all.extend([x - 1, x, x + 1, -x, x + (1 << 32), x - (1 << 32)]);
    all.extend([x ^ i64::MIN, x ^ (1 << 31), random.bits() as i64]);
    all.push(i64::from(random.bits() as i32));
    all
}

/// All operators with all constants: each a for operators 0 to 5, each pair for 6 and 7.
pub fn compare_in_all_ways<C: Signed>(calls: &mut Calls, column: &C, n: usize, constants: &[i64]) {
    let bitmap = vec![FILLINGS[n % FILLINGS.len()]; n.div_ceil(8) + n % 3];
    for &a in constants {
        for &b in constants {
            let operators = if a == b { 0..=7 } else { 6..=7 };
            for op in operators {
                calls.scan_signed(&Scan {
                    column,
                    n,
                    op,
                    a,
                    b,
                    bitmap: &bitmap,
                });
            }
        }
    }
}

pub fn small_columns_under_every_comparison<C: Signed>() {
    let mut calls = Calls::of_signed::<C>("scans of small columns");
    for (i, &n) in C::COUNTS.iter().filter(|&&n| n <= 66).enumerate() {
        for width in [0, 3, 31 - i as u32, 32] {
            let column = C::any(width, n, &mut calls.random);
            let constants = constants(&entries(&column, n), &mut calls.random);
            compare_in_all_ways(&mut calls, &column, n, &constants);
        }
    }
    calls.finish();
}

/// The numbers at the ends of their range, from both sides.
pub fn entries_at_the_ends<C: Signed>() {
    let mut calls = Calls::of_signed::<C>("scans of entries at the ends");
    let entries = [
        i32::MIN,
        i32::MAX,
        0,
        -1,
        1,
        i32::MIN + 1,
        i32::MAX - 1,
        i32::MIN,
    ];
    let column = C::of(&entries);
    let constants = constants(&entries, &mut calls.random);
    compare_in_all_ways(&mut calls, &column, 8, &constants);
    for (op, a, selected) in [
        (0, i64::from(i32::MIN), 0b1000_0001),
        (0, 1 << 31, 0),
        (2, 0, 0b1010_1001),
        (4, i64::from(i32::MAX) - 1, 0b0000_0010),
        (5, -(1 << 31), 0b1111_1111),
        (4, (1 << 32) - 1, 0),
    ] {
        let scanned = calls.scan_signed(&Scan {
            column: &column,
            n: 8,
            op,
            a,
            b: 0,
            bitmap: &[0xA5],
        });
        assert_eq!(scanned.held, [selected], "operator {op}, a {a}");
    }
    calls.finish();
}

pub fn large_columns<C: Signed>() {
    let mut calls = Calls::of_signed::<C>("scans of large columns");
    for (i, n) in LARGE_COUNTS.into_iter().enumerate() {
        for width in (i as u32..=32).step_by(LARGE_COUNTS.len()) {
            let column = C::any(width, n, &mut calls.random);
            let constants = constants(&entries(&column, n), &mut calls.random);
            let bitmap = calls.random.units(n.div_ceil(8) + 3);
            let call = Scan {
                column: &column,
                n,
                op: calls.random.below(8) as u32,
                a: calls.random.pick(&constants),
                b: calls.random.pick(&constants),
                bitmap: &bitmap,
            };
            calls.scan_signed(&call);
        }
    }
    calls.finish();
}

/// Operators 0 to 5 ignore b: any b gives what b = 0 gives.
pub fn operators_0_to_5_ignore_b<C: Signed>() {
    let mut calls = Calls::of_signed::<C>("scans with a b to ignore");
    let entries: Vec<i32> = (-50..50).collect();
    let column = C::of(&entries);
    let bitmap = [0xA5; 13];
    for op in 0..=5 {
        for a in [i64::MIN, -51, -50, -1, 0, 49, 50] {
            let mut with_b = |b| {
                calls.scan_signed(&Scan {
                    column: &column,
                    n: 100,
                    op,
                    a,
                    b,
                    bitmap: &bitmap,
                })
            };
            let plain = with_b(0);
            for b in [i64::MIN, -1, 1, a, i64::MAX] {
                assert_eq!(with_b(b), plain, "operator {op}, a {a}, b {b}");
            }
        }
    }
    calls.finish();
}

/// Any mixture of widths, counts, writers, operators, constants and rooms.
pub fn scans_at_random<C: Signed>() {
    let mut calls = Calls::of_signed::<C>("scans at random");
    for _ in 0..10_000 {
        let random = &mut calls.random;
        let width = random.below(33) as u32;
        let n = random.below(200);
        let column = C::any(width, n, random);
        let constants = constants(&entries(&column, n), random);
        let room = (n.div_ceil(8) + random.below(4)).saturating_sub(random.below(2));
        let bitmap = random.units(room);
        let call = Scan {
            column: &column,
            n,
            op: random.below(if n % 64 == 0 { 9 } else { 8 }) as u32,
            a: random.pick(&constants),
            b: random.pick(&constants),
            bitmap: &bitmap,
        };
        calls.scan_signed(&call);
    }
    calls.finish();
}
