//! The planes in their order, and all of them: what the words say by themselves, without the second reader.

use crate::layouts::pages::greatest;
use crate::reader::calls::{Pack, Rules, Scan, Unpack};
use crate::reader::vertical::Vertical;
use crate::support::calls::Calls;

/// The planes of one group in which bit j of word p alone is set.
fn one_bit(width: u32, p: usize, j: usize) -> Vec<u64> {
    let mut words = vec![0; width as usize];
    words[p] = 1 << j;
    words
}

/// Word p of a group holds bit width − 1 − p of its entries, and bit j of it is entry j's.
#[test]
fn each_bit_of_a_group() {
    let mut calls = Calls::of::<Vertical>("groups with one bit set");
    for width in 1..=32 {
        for p in 0..width as usize {
            for j in 0..64 {
                let words = one_bit(width, p, j);
                let mut entries = [0; 64];
                entries[j] = 1 << (width as usize - 1 - p);
                let unpacked = calls.unpack::<Vertical>(&Unpack {
                    page: &words,
                    width,
                    n: 64,
                    entries: &[99; 64],
                });
                assert_eq!(unpacked.held, entries, "word {p}, bit {j}");
                let packed = calls.pack::<Vertical>(&Pack {
                    entries: &entries,
                    width,
                    page: &vec![99; width as usize],
                });
                assert_eq!(packed.held, words, "word {p}, bit {j}");
                let scanned = calls.scan::<Vertical>(&Scan {
                    page: &words,
                    width,
                    n: 64,
                    op: 0,
                    a: entries[j].into(),
                    b: 0,
                    bitmap: &[0xA5; 8],
                });
                assert_eq!(scanned.held, (1u64 << j).to_le_bytes(), "word {p}, bit {j}");
            }
        }
    }
    calls.finish();
}

/// Entries that differ from `x` at one plane each, all planes in turn; every so often one that is equal.
fn settled_in_turn(x: u32, width: u32, n: usize) -> Vec<u32> {
    let entry = |i: usize| match i as u32 % (width + 1) {
        0 => x,
        k => x ^ (1 << (k - 1)),
    };
    (0..n).map(entry).collect()
}

/// A group is left no earlier than all its lanes are settled, and no plane is left out: the lanes are settled
/// at different planes, and some at none.
#[test]
fn lanes_settled_at_different_planes() {
    let mut calls = Calls::of::<Vertical>("lanes settled at different planes");
    for width in 1..=32 {
        for n in [5, 64, 100, 192, 256, 300] {
            let random = calls.random.bits() as u32;
            for x in [0, greatest(width), random & greatest(width)] {
                let entries = settled_in_turn(x, width, n);
                let page = Vertical::page_of(&entries, width);
                let x = i64::from(x);
                for (a, b) in [(x, x), (x - 1, x + 1), (x, x + 1), (x - 1, x), (x, x - 1)] {
                    for op in 0..=7 {
                        calls.scan::<Vertical>(&Scan {
                            page: &page,
                            width,
                            n,
                            op,
                            a,
                            b,
                            bitmap: &vec![0xA5; n.div_ceil(8) + 9],
                        });
                    }
                }
            }
        }
    }
    calls.finish();
}

/// Groups each of which is settled at a plane of its own, or at none, whatever those beside it do.
#[test]
fn groups_settled_at_different_planes() {
    let mut calls = Calls::of::<Vertical>("groups settled at different planes");
    for width in 1..=32 {
        for n in [256, 320, 576, 1_000] {
            let x = calls.random.bits() as u32 & greatest(width);
            let mut entries = Vec::new();
            for _ in 0..n / 64 + 1 {
                let k = calls.random.bits() as u32 % (width + 1);
                entries.extend([settled_in_turn(x, width, 33)[k as usize]; 64]);
            }
            entries.truncate(n);
            let page = Vertical::page_of(&entries, width);
            let x = i64::from(x);
            for (a, b) in [
                (x, x),
                (x - 1, x + 1),
                (x - 9, x + 200),
                (-1, x),
                (x, 1 << 32),
            ] {
                for op in 0..=7 {
                    calls.scan::<Vertical>(&Scan {
                        page: &page,
                        width,
                        n,
                        op,
                        a,
                        b,
                        bitmap: &vec![0xA5; n.div_ceil(8) + 9],
                    });
                }
            }
        }
    }
    calls.finish();
}

/// One lane that is settled at the last plane alone, all others at the first: it is still compared there.
#[test]
fn one_lane_settled_last() {
    let mut calls = Calls::of::<Vertical>("one lane settled last");
    for width in 2..=32 {
        let x = 1u32 << (width - 1);
        for j in 0..64 {
            let mut entries = [0; 64];
            entries[j] = x + 1;
            let page = Vertical::page_of(&entries, width);
            for (a, bit) in [(i64::from(x), 1u64 << j), (i64::from(x) + 1, 0)] {
                let scanned = calls.scan::<Vertical>(&Scan {
                    page: &page,
                    width,
                    n: 64,
                    op: 4,
                    a,
                    b: 0,
                    bitmap: &[0xA5; 8],
                });
                assert_eq!(
                    scanned.held,
                    bit.to_le_bytes(),
                    "lane {j}, greater than {a}"
                );
            }
        }
    }
    calls.finish();
}
