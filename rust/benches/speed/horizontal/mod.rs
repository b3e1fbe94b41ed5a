//! Bare horizontal pages: scan at every width, unpack and pack at some.

pub mod best;
pub mod lanes;
pub mod obvious;
pub mod parquet_way;

use std::hint::black_box;

use cahermisk::{horizontal, Comparison};

use crate::column::{band, entries, ENTRIES, SOME_WIDTHS};
use crate::race::{race, Way};
use crate::table::{Measured, Table};

/// Prints all tables, and gives those to be drawn.
pub fn report() -> Vec<Table> {
    println!("\nobvious: safe Rust, one entry after another, each through a window of eight bytes; packed byte by byte.");
    println!("parquet way: unpacked 64 at once with constant shifts, 1,024 into a list; then compared, 64 to a word of the bitmap. Packed by its bit writer, entry by entry, eight bytes when they are full.");
    println!("best: unsafe Rust, several entries compared at once in the lanes of a word, by constants for each width; unpacked as the parquet way does it but at widths 8, 16 and 32, and packed 64 at once with constant shifts.");
    let others = &["obvious", "parquet way", "best"];
    let title = "Horizontal scan, 16,384 entries, a band of half the numbers";
    let scans = Table::of(title, others, 1..=32, scan);
    let title = "Horizontal unpack, 16,384 entries";
    Table::of(title, others, SOME_WIDTHS, unpack);
    let title = "Horizontal pack, 16,384 entries";
    Table::of(title, others, SOME_WIDTHS, pack);
    vec![scans]
}

fn page(width: u32) -> Vec<u8> {
    horizontal::pack_to_vec(&entries(width), width).expect("the entries fit the width")
}

fn scan(width: u32) -> Measured {
    let page = page(width);
    let (low, high) = band(width);
    let between = Comparison::between(low.into(), high.into());
    let ours = |bitmap: &mut [u8]| {
        horizontal::scan(black_box(&page), width, ENTRIES, between, bitmap).expect("a good page")
    };
    let obvious = |bitmap: &mut [u8]| obvious::scan(black_box(&page), width, low, high, bitmap);
    let parquet_way =
        |bitmap: &mut [u8]| parquet_way::scan(black_box(&page), width, low, high, bitmap);
    let best = |bitmap: &mut [u8]| best::scan(black_box(&page), width, low, high, bitmap);
    let ways: [Way<u8>; 4] = [&ours, &obvious, &parquet_way, &best];
    race(width, &[0xA5; ENTRIES / 8], &ways).measured
}

fn unpack(width: u32) -> Measured {
    let page = page(width);
    let ours = |list: &mut [u32]| {
        horizontal::unpack(black_box(&page), width, ENTRIES, list).expect("a good page")
    };
    let obvious = |list: &mut [u32]| obvious::unpack(black_box(&page), width, list);
    let parquet_way = |list: &mut [u32]| parquet_way::unpack(black_box(&page), width, list);
    let best = |list: &mut [u32]| best::unpack(black_box(&page), width, list);
    let ways: [Way<u32>; 4] = [&ours, &obvious, &parquet_way, &best];
    let raced = race(width, &[0xA5; ENTRIES], &ways);
    assert_eq!(raced.written, entries(width), "width {width}");
    raced.measured
}

fn pack(width: u32) -> Measured {
    let entries = entries(width);
    let ours = |page: &mut [u8]| {
        horizontal::pack(black_box(&entries), width, page).expect("the entries fit the width")
    };
    let obvious = |page: &mut [u8]| {
        obvious::pack(black_box(&entries), width, page).expect("the entries fit the width")
    };
    let parquet_way = |page: &mut [u8]| {
        parquet_way::pack(black_box(&entries), width, page).expect("the entries fit the width")
    };
    let best = |page: &mut [u8]| {
        best::pack(black_box(&entries), width, page).expect("the entries fit the width")
    };
    let room = vec![0xA5; page(width).len()];
    let ways: [Way<u8>; 4] = [&ours, &obvious, &parquet_way, &best];
    race(width, &room, &ways).measured
}
