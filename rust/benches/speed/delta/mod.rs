//! Delta pages: scan, unpack and pack over steps of some widths.

mod best;
mod obvious;
mod page;
mod parquet_way;

use std::hint::black_box;

use cahermisk::{delta, Comparison};

use crate::column::{self, ENTRIES};
use crate::race::{race, Way};
use crate::table::{Measured, Table};

const WIDTHS: [u32; 10] = [1, 2, 4, 7, 8, 12, 16, 20, 24, 32];

/// Prints all tables, and gives those to be drawn.
pub fn report() -> Vec<Table> {
    println!("\nobvious: safe Rust, one delta after another, added to the entry before.");
    println!("parquet way: safe Rust, deltas unpacked 32 at once with constant shifts and added up into a list of entries; then compared. Packed by its bit writer, delta by delta.");
    println!("best: deltas unpacked straight from the page by constants for each width and added up into a list; then compared several at once. Packed with constant shifts.");
    println!("A width is that of the steps above the smallest, as they are packed.");
    let others = &["obvious", "parquet way", "best"];
    let title = "Delta scan, 16,384 entries, a band of half of them";
    let scans = Table::of(title, others, WIDTHS, scan);
    Table::of("Delta unpack, 16,384 entries", others, WIDTHS, unpack);
    Table::of("Delta pack, 16,384 entries", others, WIDTHS, pack);
    vec![scans]
}

/// Entries with steps of a width, up and down.
fn entries(width: u32) -> Vec<i32> {
    let smallest = i32::MIN >> (32 - width);
    let mut last = 0i32;
    let steps = column::entries(width).into_iter();
    let entries = steps.map(|above| {
        last = last.wrapping_add(smallest).wrapping_add(above as i32);
        last
    });
    entries.collect()
}

fn page(width: u32) -> Vec<u8> {
    delta::pack_to_vec(&entries(width)).expect("within the limits")
}

/// The middle half of the entries.
fn band(width: u32) -> (i32, i32) {
    let mut sorted = entries(width);
    sorted.sort();
    (sorted[ENTRIES / 4], sorted[ENTRIES / 4 * 3])
}

fn scan(width: u32) -> Measured {
    let page = page(width);
    let (low, high) = band(width);
    let between = Comparison::between(low.into(), high.into());
    let ours = |bitmap: &mut [u8]| {
        delta::scan(black_box(&page), ENTRIES, between, bitmap).expect("a good page")
    };
    let obvious = |bitmap: &mut [u8]| {
        obvious::scan(black_box(&page), ENTRIES, low, high, bitmap).expect("a good page")
    };
    let parquet_way = |bitmap: &mut [u8]| {
        parquet_way::scan(black_box(&page), ENTRIES, low, high, bitmap).expect("a good page")
    };
    let best = |bitmap: &mut [u8]| {
        best::scan(black_box(&page), ENTRIES, low, high, bitmap).expect("a good page")
    };
    let ways: [Way<u8>; 4] = [&ours, &obvious, &parquet_way, &best];
    race(width, &[0xA5; ENTRIES / 8], &ways).measured
}

fn unpack(width: u32) -> Measured {
    let page = page(width);
    let ours =
        |list: &mut [i32]| delta::unpack(black_box(&page), ENTRIES, list).expect("a good page");
    let obvious = |list: &mut [i32]| obvious::unpack(black_box(&page), list).expect("a good page");
    let parquet_way =
        |list: &mut [i32]| parquet_way::unpack(black_box(&page), list).expect("a good page");
    let best = |list: &mut [i32]| best::unpack(black_box(&page), list).expect("a good page");
    let ways: [Way<i32>; 4] = [&ours, &obvious, &parquet_way, &best];
    let raced = race(width, &[0xA5; ENTRIES], &ways);
    assert_eq!(raced.written, entries(width), "width {width}");
    raced.measured
}

fn pack(width: u32) -> Measured {
    let entries = entries(width);
    let ours =
        |page: &mut [u8]| delta::pack(black_box(&entries), page).expect("there is room enough");
    let obvious = |page: &mut [u8]| obvious::pack(black_box(&entries), page);
    let parquet_way = |page: &mut [u8]| parquet_way::pack(black_box(&entries), page);
    let best = |page: &mut [u8]| best::pack(black_box(&entries), page);
    let room = vec![0xA5; page(width).len()];
    let ways: [Way<u8>; 4] = [&ours, &obvious, &parquet_way, &best];
    race(width, &room, &ways).measured
}
