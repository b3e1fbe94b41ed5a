//! Pages cut and prolonged, and every change of one byte.

use super::layout::{entries, page, Signed};
use crate::support::calls::Calls;

/// A column as any writer might make it, and a plain one of the same entries.
fn two_columns<C: Signed>(calls: &mut Calls, width: u32, n: usize) -> [C; 2] {
    let any = C::any(width, n, &mut calls.random);
    [C::of(&entries(&any, n)), any]
}

/// A page of which the end is missing is 5, wherever it ends, and what follows a page is 6, whatever it is.
pub fn every_truncation_and_some_bytes_more<C: Signed>() {
    let mut calls = Calls::of_signed::<C>("pages cut and prolonged");
    for width in [0, 1, 2, 5, 8, 13, 20, 32] {
        for &n in C::COUNTS.iter().filter(|&&n| n <= 131) {
            for column in two_columns::<C>(&mut calls, width, n) {
                let page = page(&column);
                for len in 0..page.len() {
                    assert_eq!(calls.read_signed(&column.with_page(&page[..len]), n), 5);
                }
                assert_eq!(calls.read_signed(&column, n), 0);
                for more in [0x00, 0x01, 0x7F, 0x80, 0xFF] {
                    for times in [1, 300] {
                        let long = [page, &vec![more; times]].concat();
                        assert_eq!(calls.read_signed(&column.with_page(&long), n), 6);
                    }
                }
            }
        }
    }
    calls.finish();
}

/// Every other value at every place of small pages; of a long page, at its first places.
pub fn every_change_of_one_byte<C: Signed>() {
    let mut calls = Calls::of_signed::<C>("pages with one byte changed");
    for (width, n) in [
        (0, 0),
        (0, 1),
        (0, 2),
        (0, 34),
        (0, 130),
        (1, 2),
        (1, 34),
        (1, 130),
        (2, 8),
        (3, 33),
        (8, 8),
        (17, 2),
        (32, 2),
        (32, 34),
    ] {
        for column in two_columns::<C>(&mut calls, width, n) {
            let mut page = page(&column).to_vec();
            for place in 0..page.len().min(48) {
                let good = page[place];
                for other in 1..=255 {
                    page[place] = good ^ other;
                    calls.read_signed(&column.with_page(&page), n);
                }
                page[place] = good;
            }
        }
    }
    calls.finish();
}

/// Every byte of small pages left out, and every byte there twice.
pub fn every_byte_missing_and_doubled<C: Signed>() {
    let mut calls = Calls::of_signed::<C>("pages with a byte missing or doubled");
    for width in 0..=32 {
        for n in [1, 2, 33, 34, 130] {
            let column = C::any(width, n, &mut calls.random);
            let page = page(&column);
            for place in 0..page.len().min(64) {
                let mut missing = page.to_vec();
                let byte = missing.remove(place);
                calls.read_signed(&column.with_page(&missing), n);
                let mut doubled = page.to_vec();
                doubled.insert(place, byte);
                calls.read_signed(&column.with_page(&doubled), n);
            }
        }
    }
    calls.finish();
}
