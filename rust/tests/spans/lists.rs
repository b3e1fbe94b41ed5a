//! Bitmaps of lists of spans, good ones and others.

use super::samples::{list, COUNTS, DENSITIES, LARGE_COUNTS};
use crate::reader::spans::ToBitmap;
use crate::support::calls::Calls;
use crate::support::random::Random;

/// Numbers that are next to one another, and the greatest: a sum of it must not come round.
const NUMBERS: [u32; 8] = [0, 1, 2, 3, 4, 5, u32::MAX - 1, u32::MAX];

/// All lists of up to four such numbers, of odd lengths too.
#[test]
fn every_small_list() {
    let mut calls = Calls::of_spans("every small list");
    for len in 0..=4 {
        for which in 0..NUMBERS.len().pow(len) {
            let number = |k| NUMBERS[which / NUMBERS.len().pow(k) % NUMBERS.len()];
            let spans: Vec<u32> = (0..len).map(number).collect();
            for n in 0..=7 {
                calls.bitmap_of(&spans, n, 1);
            }
        }
    }
    calls.finish();
}

/// One stretch from each entry of some words to each other, and past n.
#[test]
fn every_single_stretch() {
    let mut calls = Calls::of_spans("every single span");
    let n = 150u32;
    for first in 0..=n + 1 {
        for last in first.saturating_sub(2)..=n + 1 {
            let marked = calls.bitmap_of(&[first, last], n as usize, 20);
            let is_good = first <= last && last < n;
            let code = if is_good { 0 } else { 18 };
            assert_eq!(marked.code, code, "{first} to {last}");
            let count = if is_good { last - first + 1 } else { 0 };
            assert_eq!(marked.number, count, "{first} to {last}");
        }
    }
    calls.finish();
}

#[test]
fn good_lists() {
    let mut calls = Calls::of_spans("good lists");
    for density in DENSITIES {
        for n in COUNTS.into_iter().chain(LARGE_COUNTS) {
            for later in [0, 1, 9] {
                let spans = list(density, n, &mut calls.random);
                let marked = calls.bitmap_of(&spans, n, n.div_ceil(8) + later);
                assert_eq!(marked.code, 0, "{density:?}, n {n}");
            }
        }
    }
    calls.finish();
}

/// The longest good lists, and with a stretch that goes on to the last entry, or past it.
#[test]
fn lists_that_reach_the_end() {
    let mut calls = Calls::of_spans("lists to the end");
    for n in COUNTS.into_iter().chain(LARGE_COUNTS).filter(|&n| n > 0) {
        let numbers = (0..n as u32).step_by(2);
        let mut spans: Vec<u32> = numbers.flat_map(|i| [i, i]).collect();
        let room = n.div_ceil(8);
        let marked = calls.bitmap_of(&spans, n, room);
        assert_eq!((marked.code, marked.number), (0, n.div_ceil(2) as u32));
        for (last, code) in [(n - 1, 0), (n, 18), (n + 1, 18), (u32::MAX as usize, 18)] {
            *spans.last_mut().expect("an entry") = last as u32;
            assert_eq!(calls.bitmap_of(&spans, n, room).code, code, "n {n}");
        }
    }
    calls.finish();
}

/// One number of a good list changed by a little, or to something else: often touching, crossing, or an end before
/// its start.
fn with_a_fault(spans: &[u32], at: usize, random: &mut Random) -> Vec<u32> {
    let mut changed = spans.to_vec();
    let number = changed[at];
    let any = random.bits() as u32;
    changed[at] = random.pick(&[
        number.wrapping_add(1),
        number.wrapping_sub(1),
        number.wrapping_add(2),
        number.wrapping_sub(2),
        number | 1 << 31,
        number.wrapping_add(1 << 16),
        any,
        u32::MAX,
    ]);
    changed
}

#[test]
fn a_fault_at_each_place() {
    let mut calls = Calls::of_spans("a fault at each place");
    for density in DENSITIES {
        for n in COUNTS {
            let spans = list(density, n, &mut calls.random);
            for at in 0..spans.len() {
                let changed = with_a_fault(&spans, at, &mut calls.random);
                calls.bitmap_of(&changed, n, n.div_ceil(8));
            }
        }
    }
    calls.finish();
}

/// Two spans that leave no entry between them, that cross, and that come in the wrong order, behind many good ones:
/// nothing has been written when the last is judged.
#[test]
fn the_last_span_is_at_fault() {
    let mut calls = Calls::of_spans("faults at the end");
    let good: Vec<u32> = (0..500).flat_map(|i| [20 * i, 20 * i + 9]).collect();
    for (last, code) in [
        ([9_991, 9_993], 0),
        ([9_990, 9_993], 18),
        ([9_989, 9_993], 18),
        ([9_980, 9_989], 18),
        ([0, 9], 18),
        ([9_993, 9_992], 18),
        ([9_991, 16_383], 0),
        ([9_991, 16_384], 18),
        ([u32::MAX, 1], 18),
        ([9_991, u32::MAX], 18),
    ] {
        let spans = [&good[..], &last].concat();
        let marked = calls.bitmap_of(&spans, 16_384, 2048);
        assert_eq!(marked.code, code, "{last:?}");
    }
    calls.finish();
}

/// A number beyond all entries, from which the next must not be reached by a sum that comes round.
#[test]
fn sums_do_not_come_round() {
    let mut calls = Calls::of_spans("sums");
    for last in [u32::MAX, u32::MAX - 1, 1 << 31, 1 << 16] {
        for next in 0..4 {
            for first in [0, last] {
                let spans = [first, last, next, next + 1];
                assert_eq!(calls.bitmap_of(&spans, 16_384, 2048).code, 18);
            }
        }
    }
    calls.finish();
}

#[test]
fn lists_at_random() {
    let mut calls = Calls::of_spans("lists at random");
    for _ in 0..100_000 {
        let random = &mut calls.random;
        let n = random.below(300);
        let density = random.pick(&DENSITIES);
        let mut spans = list(density, n, random);
        if !spans.is_empty() && random.once_in(3) {
            spans = with_a_fault(&spans, random.below(spans.len()), random);
        }
        if random.once_in(20) {
            spans.pop();
        }
        let room = (n.div_ceil(8) + random.below(3)).saturating_sub(random.below(2));
        let bitmap = random.units(room);
        calls.spans_to_bitmap(&ToBitmap {
            spans: &spans,
            n,
            bitmap: &bitmap,
        });
    }
    calls.finish();
}
