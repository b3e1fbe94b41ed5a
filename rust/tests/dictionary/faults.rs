//! Where several codes could be given, the first is: 2, 3, 4, 14, then the page's first fault in reading order, then 15.

use super::columns::{column, dict_of, values, MOST_VALUES};
use crate::reader::dictionary::Dictionary;
use crate::signed::order::under_any_set_of_faulty_arguments;
use crate::support::calls::Calls;

const VALUES: [i32; 3] = [-7, 0, 9];

/// Index pages of 9 entries over three values with a fault, and its code. Where one of them has a second fault, that
/// comes later; an index that is too large comes after all others.
const PAGES: [(&[u8], u32); 27] = [
    (&[], 5),
    (&[0x21], 1),
    (&[0xFF, 0x12, 0x03], 1),
    (&[0x20], 5),
    (&[0x02], 5),
    (&[0x02, 0x80], 5),
    (&[0x02, 0x80, 0x80, 0x80, 0x80, 0x10], 9),
    (&[0x02, 0x00], 10),
    (&[0x02, 0x01, 0xFF], 10),
    (&[0x02, 0x14, 0x04], 11),
    (&[0x02, 0x07, 0x00], 11),
    (&[0x02, 0x12], 5),
    (&[0x02, 0x05, 0x00, 0x00, 0x00], 5),
    (&[0x02, 0x12, 0x04], 8),
    (&[0x02, 0x12, 0x00, 0x00], 6),
    (&[0x02, 0x10, 0x03], 5),
    (&[0x02, 0x10, 0x03, 0x80, 0x80, 0x80, 0x80, 0x10], 9),
    (&[0x02, 0x10, 0x03, 0x00], 10),
    (&[0x02, 0x10, 0x03, 0x04, 0x00], 11),
    (&[0x02, 0x10, 0x03, 0x02, 0x04], 8),
    (&[0x02, 0x12, 0x03, 0x00], 6),
    (&[0x02, 0x12, 0x03], 15),
    (&[0x20, 0x12, 0xFF, 0xFF, 0xFF, 0xFF], 15),
    (&[0x02, 0x10, 0x00, 0x02, 0x03], 15),
    (&[0x02, 0x02, 0x03, 0x10, 0x00], 15),
    (&[0x02, 0x05, 0x00, 0x00, 0x03, 0x00], 15),
    (&[0x02, 0x05, 0x03, 0x00, 0x00, 0x00], 15),
];

#[test]
fn faulty_pages_under_any_set_of_faulty_arguments() {
    let mut calls = Calls::of_dictionary("codes in order");
    for (page, in_page) in PAGES {
        let column = column(&VALUES, page);
        under_any_set_of_faulty_arguments(&mut calls, &column, 9, in_page);
    }
    calls.finish();
}

/// Dictionaries that are none: lengths, and values that do not ascend as signed numbers, low byte first.
fn faulty_dictionaries() -> Vec<Vec<u8>> {
    let unordered: [&[i32]; 9] = [
        &[1, 0],
        &[5, 5],
        &[0, -1],
        &[i32::MAX, i32::MIN],
        &[256, 1],
        &[0x0100_0000, 0x0000_0001],
        &[-1, -2],
        &[-7, 0, 9, 9],
        &[i32::MIN, i32::MIN, i32::MAX],
    ];
    let mut all: Vec<Vec<u8>> = unordered.into_iter().map(dict_of).collect();
    all.extend([1, 2, 3, 5, 11, 13].map(|len| dict_of(&[-7, 0, 9, 10])[..len].to_vec()));
    let long: Vec<i32> = (0..=MOST_VALUES as i32).collect();
    all.push(dict_of(&long));
    all
}

/// 14 comes before whatever is wrong with the page, and where nothing is; also with no entries.
#[test]
fn faulty_dictionaries_come_before_the_page() {
    let mut calls = Calls::of_dictionary("faulty dictionaries");
    for dict in faulty_dictionaries() {
        for (page, _) in PAGES.into_iter().chain([(&[0x02, 0x12, 0x00][..], 0)]) {
            let page = page.to_vec();
            let dict = dict.clone();
            under_any_set_of_faulty_arguments(&mut calls, &Dictionary { dict, page }, 9, 14);
        }
        for page in [&[][..], &[0x00], &[0x21], &[0x00, 0x00]] {
            assert_eq!(calls.read_dictionary(&dict, page, 0), 14);
        }
    }
    calls.finish();
}

/// All lengths of small dictionaries, and those about the limit.
#[test]
fn lengths_of_dictionaries() {
    let mut calls = Calls::of_dictionary("lengths of dictionaries");
    let ascending: Vec<i32> = (-20_000..20_000).collect();
    let bytes = dict_of(&ascending);
    let about_the_limit = 65_520..=65_552;
    for len in (0..=40).chain(about_the_limit).chain([131_072, 160_000]) {
        let good = len % 4 == 0 && len <= 65_536;
        let code = |n: usize| match () {
            _ if !good => 14,
            _ if len == 0 && n > 0 => 15,
            _ => 0,
        };
        let dict = &bytes[..len];
        assert_eq!(calls.read_dictionary(dict, &[0x00], 0), code(0));
        assert_eq!(calls.read_dictionary(dict, &[0x00, 0x06], 3), code(3));
    }
    calls.finish();
}

/// Two values that change places, or are equal, at each place of a dictionary.
#[test]
fn values_that_do_not_ascend_at_one_place() {
    let mut calls = Calls::of_dictionary("values that do not ascend");
    for count in [2, 3, 4, 5, 8, 9, 17, 64] {
        let good = values(count, &mut calls.random);
        for place in 1..count {
            let mut exchanged = good.clone();
            exchanged.swap(place - 1, place);
            let mut equal = good.clone();
            equal[place] = good[place - 1];
            for bad in [exchanged, equal] {
                let code = calls.read_dictionary(&dict_of(&bad), &[0x00, 0x06], 3);
                assert_eq!(code, 14, "place {place} of {count}");
            }
        }
    }
    let all = values(MOST_VALUES, &mut calls.random);
    for place in [1, 2, 8191, 8192, MOST_VALUES - 1] {
        let mut bad = all.clone();
        bad[place] = all[place - 1];
        let code = calls.read_dictionary(&dict_of(&bad), &[0x00, 0x06], 3);
        assert_eq!(code, 14, "place {place}");
    }
    calls.finish();
}

/// An empty dictionary is good with no entries. With some, the page is judged, and if it is good, 15.
#[test]
fn empty_dictionaries() {
    let mut calls = Calls::of_dictionary("empty dictionaries");
    for (page, code) in PAGES {
        assert_eq!(calls.read_dictionary(&[], page, 9), code, "{page:02x?}");
    }
    for width in 0..=32u8 {
        assert_eq!(calls.read_dictionary(&[], &[width], 0), 0);
        assert_eq!(calls.read_dictionary(&[], &[width, 0x00], 0), 6);
        let zeros = [&[width, 0x06][..], &[0; 4][..width.div_ceil(8).into()]].concat();
        assert_eq!(calls.read_dictionary(&[], &zeros, 3), 15);
    }
    calls.finish();
}

/// The width byte is needed and judged also with no entries, and nothing may follow it then.
#[test]
fn width_bytes() {
    let mut calls = Calls::of_dictionary("width bytes");
    for dict in [vec![], dict_of(&VALUES)] {
        assert_eq!(calls.read_dictionary(&dict, &[], 0), 5);
        assert_eq!(calls.read_dictionary(&dict, &[], 1), 5);
        for width in 0..=255u8 {
            let above = width > 32;
            for (more, n, code) in [(&[][..], 0, 0), (&[0x02], 0, 6), (&[], 1, 5)] {
                let page = [&[width], more].concat();
                let code = if above { 1 } else { code };
                assert_eq!(calls.read_dictionary(&dict, &page, n), code, "{page:?}");
            }
        }
    }
    calls.finish();
}
