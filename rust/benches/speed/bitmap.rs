//! A bitmap's selected entries, into a list of their numbers.

use std::hint::black_box;

use cahermisk::{horizontal, Bitmap, Comparison};

use crate::column::{entries, ENTRIES};
use crate::race::{race, Way};
use crate::table::{Measured, Table};

/// Widths at which 0 is a half of all numbers, and at last a 4,096th.
const WIDTHS: [u32; 7] = [1, 2, 3, 4, 6, 8, 12];

pub fn report() {
    println!("\nbit by bit: every entry is asked for by its number.");
    let title = "Numbers of selected entries, 16,384 entries, one in 2^width of them selected";
    Table::of(title, &["bit by bit"], WIDTHS, selected);
}

/// The entries equal to 0.
fn bitmap(width: u32) -> Bitmap {
    let page = horizontal::pack_to_vec(&entries(width), width).expect("the entries fit the width");
    horizontal::scan_to_bitmap(&page, width, ENTRIES, Comparison::equal(0)).expect("a good page")
}

/// Writes numbers to the front of a list, and tells how many they are.
fn put(numbers: impl Iterator<Item = usize>, list: &mut [usize]) -> usize {
    let mut places = list.iter_mut();
    let mut count = 0;
    for number in numbers {
        *places.next().expect("a place for each entry") = number;
        count += 1;
    }
    count
}

fn selected(width: u32) -> Measured {
    let bitmap = bitmap(width);
    let ours = |list: &mut [usize]| put(black_box(&bitmap).selected(), list);
    let bit_by_bit = |list: &mut [usize]| {
        let bitmap = black_box(&bitmap);
        put((0..ENTRIES).filter(|&i| bitmap.contains(i)), list)
    };
    let ways: [Way<usize>; 2] = [&ours, &bit_by_bit];
    race(width, &[0; ENTRIES], &ways).measured
}
