//! Indexes about the dictionary's count, of each width and in runs of both kinds.

use super::columns::{column, page_of, values};
use crate::layouts::pages::greatest;
use crate::reader::numbers::shortest;
use crate::reader::runs::{packed_run, repeated_run};
use crate::support::calls::Calls;

/// Indexes about a count, and some that are below it once they are cut.
fn about(count: u32, width: u32) -> Vec<u32> {
    let mut all = vec![0, count - 1, count, count + 1, u32::MAX];
    all.extend((0..32).map(|k| 1 << k));
    all.extend([8, 14, 15, 16, 30, 31].map(|k| count - 1 + (1 << k)));
    all.retain(|&index| index <= greatest(width));
    all
}

/// One index among others that are good, in packed and in repeated runs: 15 exactly if it is not below the count.
#[test]
fn one_index_of_each_width() {
    let mut calls = Calls::of_dictionary("one index of each width");
    for width in 0..=32 {
        for count in [1, 2, 3, 4, 255, 256, 1000] {
            let values = values(count as usize, &mut calls.random);
            for index in about(count, width) {
                let code = if index < count { 0 } else { 15 };
                let mut packed = vec![0; 19];
                packed[calls.random.below(19)] = index;
                let mut repeated = vec![0; 9];
                repeated.extend(vec![index; 10]);
                for list in [packed, repeated] {
                    let column = column(&values, &page_of(&list, width));
                    let what = format!("index {index} of {count}, width {width}");
                    assert_eq!(calls.read_signed(&column, 19), code, "{what}");
                }
            }
        }
    }
    calls.finish();
}

/// An index that is too large at each place of a packed run: past n it is not judged.
#[test]
fn an_index_too_large_at_each_place() {
    let mut calls = Calls::of_dictionary("an index too large at each place");
    for width in [2, 3, 7, 8, 9, 15, 17, 31, 32] {
        for (before, groups) in [(0, 1), (0, 2), (3, 1), (3, 2), (8, 1), (13, 8)] {
            for past in [0, 1, 4, 7] {
                let n = before + 8 * groups - past;
                for place in 0..8 * groups {
                    let mut entries = vec![1; 8 * groups];
                    entries[place] = calls.random.pick(&[3, greatest(width)]);
                    let mut page = vec![width as u8];
                    if before > 0 {
                        page.extend(repeated_run(&shortest(2 * before as u64), 2, width));
                    }
                    let header = shortest(2 * groups as u64 + 1);
                    page.extend(packed_run(&header, &entries, width));
                    let code = if before + place < n { 15 } else { 0 };
                    let column = column(&[-7, 0, 9], &page);
                    assert_eq!(calls.read_signed(&column, n), code, "place {place}");
                }
            }
        }
    }
    calls.finish();
}

/// As many values as the width can count: no index is too large, and one value less makes the last one so.
#[test]
fn as_many_values_as_the_width_counts() {
    let mut calls = Calls::of_dictionary("as many values as the width counts");
    for width in 0..=14 {
        let count = 1usize << width;
        let values = values(count, &mut calls.random);
        let all: Vec<u32> = (0..count as u32).rev().collect();
        let page = page_of(&all, width);
        let whole = column(&values, &page);
        let descending: Vec<i32> = values.iter().rev().copied().collect();
        assert_eq!(calls.entries_signed(&whole, count), descending);
        assert_eq!(calls.read_signed(&whole, count), 0);
        let less = column(&values[..count - 1], &page);
        assert_eq!(calls.read_signed(&less, count), 15);
    }
    calls.finish();
}

/// Width 0: all indexes are 0, in runs of both kinds that have no bodies.
#[test]
fn indexes_of_no_bits() {
    let mut calls = Calls::of_dictionary("indexes of no bits");
    for values in [&[7][..], &[-3, 7]] {
        for (page, n) in [
            (&[0x00, 0x08][..], 4),
            (&[0x00, 0x03], 4),
            (&[0x00, 0x02, 0x05], 17),
        ] {
            let column = column(values, page);
            assert_eq!(calls.entries_signed(&column, n), vec![values[0]; n]);
            assert_eq!(calls.read_signed(&column, n), 0);
        }
    }
    calls.finish();
}
