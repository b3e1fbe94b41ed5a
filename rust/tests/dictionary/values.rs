//! Comparisons with constants at, about and between the values of a dictionary, also values that no entry has.

use super::columns::{column, page_of, values, MOST_VALUES};
use crate::reader::dictionary::Dictionary;
use crate::reader::signed::Scan;
use crate::signed::comparisons::compare_in_all_ways;
use crate::support::calls::Calls;

/// A column whose entries are each value in turn, but for every third one.
fn most_of(values: &[i32]) -> (Dictionary, usize) {
    let indexes: Vec<u32> = (0..values.len() as u32).filter(|i| i % 3 != 1).collect();
    let column = column(values, &page_of(&indexes, 14));
    (column, indexes.len())
}

/// Each value with its neighbours, the middle between any two that follow each other, and the ends of all ranges.
fn about(values: &[i32]) -> Vec<i64> {
    let mut all = vec![i64::MIN, i64::MAX, -(1 << 31), (1 << 31) - 1];
    all.extend([-(1 << 31) - 1, 1 << 31, (1 << 32) - 1]);
    for &value in values {
        let value = i64::from(value);
        all.extend([value - 1, value, value + 1, value + (1 << 32)]);
    }
    let pairs = values.windows(2);
    all.extend(pairs.map(|pair| (i64::from(pair[0]) + i64::from(pair[1])) / 2));
    all.sort();
    all.dedup();
    all
}

#[test]
fn constants_about_all_values() {
    let mut calls = Calls::of_dictionary("scans with constants about all values");
    let chosen: [&[i32]; 8] = [
        &[],
        &[0],
        &[i32::MIN],
        &[i32::MAX],
        &[-120, 0, 85, 310],
        &[i32::MIN, i32::MAX],
        &[i32::MIN, i32::MIN + 1, -1, 0, 1, i32::MAX - 1, i32::MAX],
        &[-3, -2, -1, 0, 1, 2, 3],
    ];
    for values in chosen {
        let (column, n) = most_of(values);
        compare_in_all_ways(&mut calls, &column, n, &about(values));
    }
    calls.finish();
}

/// Dictionaries of every small count: a search by halves ends at each place.
#[test]
fn dictionaries_of_every_small_count() {
    let mut calls = Calls::of_dictionary("scans of every small dictionary");
    for count in 1..=17 {
        let values: Vec<i32> = (0..count).map(|k| 10 * k - 60).collect();
        let (column, n) = most_of(&values);
        let constants: Vec<i64> = (-14..=24).map(|k| 5 * k).collect();
        compare_in_all_ways(&mut calls, &column, n, &constants);
    }
    calls.finish();
}

/// The largest dictionaries, whose entries are most of their values, each once.
#[test]
fn the_largest_dictionaries() {
    let mut calls = Calls::of_dictionary("scans of the largest dictionaries");
    for count in [MOST_VALUES - 1, MOST_VALUES] {
        let values = values(count, &mut calls.random);
        let (column, n) = most_of(&values);
        let constants = about(&values);
        for i in 0..200 {
            let call = Scan {
                column: &column,
                n,
                op: i % 8,
                a: calls.random.pick(&constants),
                b: calls.random.pick(&constants),
                bitmap: &vec![0xA5; n.div_ceil(8)],
            };
            calls.scan_signed(&call);
        }
        assert_eq!(calls.read_signed(&column, n), 0);
    }
    calls.finish();
}
