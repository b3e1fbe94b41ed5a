//! Spans of bitmaps.

use super::samples::{bitmap, COUNTS, DENSITIES, LARGE_COUNTS};
use crate::reader::spans::FromBitmap;
use crate::support::calls::Calls;

/// Each bitmap of two bytes, of as many entries as it has or fewer.
#[test]
fn every_small_bitmap() {
    let mut calls = Calls::of_spans("every small bitmap");
    for bits in 0..=u16::MAX {
        let bitmap = bits.to_le_bytes();
        for n in [0, 1, 5, 7, 8, 9, 13, 15, 16] {
            assert_eq!(calls.list_of(&bitmap, n, 16).code, 0);
        }
    }
    calls.finish();
}

/// One stretch, from each entry of some words to each other, with nothing selected past n and with everything.
#[test]
fn every_single_stretch() {
    let mut calls = Calls::of_spans("every single stretch");
    let n = 150;
    for first in 0..n {
        for last in first..n {
            for past in [0x00, 0xFF] {
                let mut bitmap = vec![0u8; 19];
                (first..=last).for_each(|i| bitmap[i / 8] |= 1 << (i % 8));
                bitmap[18] |= past << (n % 8);
                bitmap.extend([past; 9]);
                let listed = calls.list_of(&bitmap, n, 2);
                assert_eq!((listed.code, listed.number), (0, 1));
                assert_eq!(listed.held, [first as u32, last as u32]);
            }
        }
    }
    calls.finish();
}

/// All densities and awkward counts, with anything past n in the last byte and in later bytes.
#[test]
fn every_density_and_count() {
    let mut calls = Calls::of_spans("every density");
    for density in DENSITIES {
        for n in COUNTS.into_iter().chain(LARGE_COUNTS) {
            for later in [0, 1, 9] {
                let bytes = n.div_ceil(8) + later;
                let bitmap = bitmap(density, bytes, &mut calls.random);
                let listed = calls.list_of(&bitmap, n, n + 1);
                assert_eq!(listed.code, 0, "{density:?}, n {n}");
            }
        }
    }
    calls.finish();
}

/// What stands past n has no part in the answer.
#[test]
fn nothing_past_n_matters() {
    let mut calls = Calls::of_spans("bits past n");
    for density in DENSITIES {
        for n in COUNTS {
            let short = bitmap(density, n.div_ceil(8), &mut calls.random);
            let listed = calls.list_of(&short, n, n + 1);
            let mut longer = [&short[..], &[0xFF; 9]].concat();
            for past in n..8 * short.len() {
                longer[past / 8] ^= 1 << (past % 8);
            }
            let again = calls.list_of(&longer, n, n + 1);
            assert_eq!(again.number, listed.number, "{density:?}, n {n}");
            let written = 2 * listed.number as usize;
            assert_eq!(again.held[..written], listed.held[..written]);
        }
    }
    calls.finish();
}

/// Each room from none to one place more than is needed: 4 below twice the pairs, and an odd room is no fault.
#[test]
fn every_room() {
    let mut calls = Calls::of_spans("every room");
    for density in DENSITIES {
        for n in COUNTS {
            let bitmap = bitmap(density, n.div_ceil(8), &mut calls.random);
            let pairs = calls.list_of(&bitmap, n, n + 1).number as usize;
            for room in 0..=2 * pairs + 1 {
                let listed = calls.list_of(&bitmap, n, room);
                let code = if room < 2 * pairs { 4 } else { 0 };
                assert_eq!(listed.code, code, "{pairs} pairs, room {room}");
            }
        }
    }
    calls.finish();
}

/// As many stretches as there may be: the room that is always enough, and one place less.
#[test]
fn the_most_stretches() {
    let mut calls = Calls::of_spans("most stretches");
    for n in COUNTS.into_iter().chain(LARGE_COUNTS) {
        let bitmap = vec![0b0101_0101; n.div_ceil(8)];
        let most = 2 * n.div_ceil(2);
        let listed = calls.list_of(&bitmap, n, most);
        assert_eq!((listed.code, 2 * listed.number as usize), (0, most));
        if n > 0 {
            assert_eq!(calls.list_of(&bitmap, n, most - 1).code, 4);
        }
    }
    calls.finish();
}

#[test]
fn bitmaps_at_random() {
    let mut calls = Calls::of_spans("bitmaps at random");
    for _ in 0..100_000 {
        let random = &mut calls.random;
        let n = random.below(300);
        let bytes = (n.div_ceil(8) + random.below(3)).saturating_sub(random.below(2));
        let density = random.pick(&DENSITIES);
        let bitmap = bitmap(density, bytes, random);
        let spans: Vec<u32> = (0..random.below(n + 4))
            .map(|_| random.bits() as u32)
            .collect();
        calls.spans_from_bitmap(&FromBitmap {
            bitmap: &bitmap,
            n,
            spans: &spans,
        });
    }
    calls.finish();
}
