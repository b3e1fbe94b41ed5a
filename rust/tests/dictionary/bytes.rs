//! Any bytes as a dictionary or as an index page.

use super::columns::{dict_of, page_of, values};
use crate::support::calls::Calls;

/// Dictionaries with a byte changed in every way, cut at every place, and with a byte missing or doubled.
#[test]
fn every_change_of_a_dictionary() {
    let mut calls = Calls::of_dictionary("dictionaries changed");
    for count in [1, 2, 3, 5, 9, 16] {
        let n = 2 * count;
        let dict = dict_of(&values(count, &mut calls.random));
        let indexes: Vec<u32> = (0..n as u32).map(|i| i / 2).collect();
        let page = page_of(&indexes, 5);
        assert_eq!(calls.read_dictionary(&dict, &page, n), 0);
        for place in 0..dict.len() {
            for other in 1..=255 {
                let mut changed = dict.clone();
                changed[place] ^= other;
                calls.read_dictionary(&changed, &page, n);
            }
            calls.read_dictionary(&dict[..place], &page, n);
            let mut missing = dict.clone();
            let byte = missing.remove(place);
            calls.read_dictionary(&missing, &page, n);
            let mut doubled = dict.clone();
            doubled.insert(place, byte);
            calls.read_dictionary(&doubled, &page, n);
        }
    }
    calls.finish();
}

/// All streams of two bytes behind some width bytes.
#[test]
fn all_streams_of_two_bytes() {
    let mut calls = Calls::of_dictionary("all streams of two bytes");
    let dict = dict_of(&[-7, 0, 9]);
    for (width, n) in [(0, 0), (0, 200), (1, 5), (2, 9), (3, 3), (8, 8), (33, 9)] {
        for x in 0..=255 {
            assert!(calls.read_dictionary(&dict, &[width, x], n) < 14);
            for y in 0..=255 {
                calls.read_dictionary(&dict, &[width, x, y], n);
            }
        }
    }
    calls.finish();
}

/// Pages at random behind a good width byte, most of their bytes small, so that runs are short and some get far.
#[test]
fn bytes_at_random() {
    let mut calls = Calls::of_dictionary("bytes at random");
    for _ in 0..60_000 {
        let random = &mut calls.random;
        let n = random.below(100);
        let values: Vec<i32> = (0..random.below(9) as i32).collect();
        let len = random.below(40);
        let mask = random.pick(&[0x03, 0x07, 0x1F, 0x83, 0xFF]);
        let mut page = vec![random.below(34) as u8];
        page.extend((0..len).map(|_| random.bits() as u8 & mask));
        calls.read_dictionary(&dict_of(&values), &page, n);
    }
    calls.finish();
}
