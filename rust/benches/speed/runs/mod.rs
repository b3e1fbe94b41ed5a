//! Run streams: scan over runs of different shapes, unpack and pack over a mixture, at some widths.

pub mod best;
pub mod obvious;
pub mod page;
pub mod parquet_way;
pub mod stream;

use std::hint::black_box;

use cahermisk::{runs, Comparison};

use crate::column::{band, ENTRIES};
use crate::race::{race, Way};
use crate::table::{Measured, Table};
use stream::Shape;

const WIDTHS: [u32; 7] = [1, 3, 7, 8, 12, 20, 32];

/// Prints all tables, and gives those to be drawn: the first shape and the mixture.
pub fn report() -> Vec<Table> {
    println!("\nobvious: safe Rust, run by run, and each run's entries one after another.");
    println!("parquet way: safe Rust, runs read into a list of entries, packed ones by eight with constant shifts; then compared. Packed by its encoder, entry by entry.");
    println!("best: by constants for each width, no list; each run's bits are put into the bitmap, packed ones 64 at once, compared in lanes; groups unpacked and packed with constant shifts.");
    let others = &["obvious", "parquet way", "best"];
    let scans = [
        ("long repeated runs", Shape::Long),
        (
            "packed runs that begin at a byte of the bitmap",
            Shape::Aligned,
        ),
        ("packed runs that begin inside a byte", Shape::Unaligned),
        (
            "repeated runs of 8 to 40 and packed runs of 1 to 8 groups",
            Shape::Mixed,
        ),
    ];
    let [long, _, _, mixed] = scans.map(|(title, shape)| {
        let title = format!("Run stream scan, 16,384 entries, {title}");
        Table::of(&title, others, WIDTHS, |width| scan(width, shape))
    });
    for (title, measured) in [("unpack", unpack as fn(u32) -> Measured), ("pack", pack)] {
        let title = format!("Run stream {title}, 16,384 entries, the same mixture");
        Table::of(&title, others, WIDTHS, measured);
    }
    vec![long, mixed]
}

fn scan(width: u32, shape: Shape) -> Measured {
    let page = shape.stream(width);
    let (low, high) = band(width);
    let between = Comparison::between(low.into(), high.into());
    let ours = |bitmap: &mut [u8]| {
        runs::scan(black_box(&page), width, ENTRIES, between, bitmap).expect("a good stream")
    };
    let obvious = |bitmap: &mut [u8]| {
        let count = obvious::scan(black_box(&page), width, ENTRIES, low, high, bitmap);
        count.expect("a good stream")
    };
    let parquet_way = |bitmap: &mut [u8]| {
        let count = parquet_way::scan(black_box(&page), width, ENTRIES, low, high, bitmap);
        count.expect("a good stream")
    };
    let best = |bitmap: &mut [u8]| {
        let count = best::scan(black_box(&page), width, (low, high), u32::MAX, bitmap);
        count.expect("a good stream")
    };
    let ways: [Way<u8>; 4] = [&ours, &obvious, &parquet_way, &best];
    race(width, &[0xA5; ENTRIES / 8], &ways).measured
}

fn unpack(width: u32) -> Measured {
    let page = Shape::Mixed.stream(width);
    let ours = |list: &mut [u32]| {
        runs::unpack(black_box(&page), width, ENTRIES, list).expect("a good stream")
    };
    let obvious =
        |list: &mut [u32]| obvious::unpack(black_box(&page), width, list).expect("a good stream");
    let parquet_way = |list: &mut [u32]| {
        parquet_way::unpack(black_box(&page), width, list).expect("a good stream")
    };
    let best =
        |list: &mut [u32]| best::unpack(black_box(&page), width, list).expect("a good stream");
    let ways: [Way<u32>; 4] = [&ours, &obvious, &parquet_way, &best];
    race(width, &[0xA5; ENTRIES], &ways).measured
}

fn pack(width: u32) -> Measured {
    let page = Shape::Mixed.stream(width);
    let entries = runs::unpack_to_vec(&page, width, ENTRIES).expect("a good stream");
    let ours = |page: &mut [u8]| {
        runs::pack(black_box(&entries), width, page).expect("the entries fit the width")
    };
    let obvious = |page: &mut [u8]| {
        obvious::pack(black_box(&entries), width, page).expect("the entries fit the width")
    };
    let parquet_way = |page: &mut [u8]| {
        parquet_way::pack(black_box(&entries), width, page).expect("the entries fit the width")
    };
    let room = runs::pack_to_vec(&entries, width).expect("the entries fit the width");
    let best = |page: &mut [u8]| {
        best::pack(black_box(&entries), width, page).expect("the entries fit the width")
    };
    let ways: [Way<u8>; 4] = [&ours, &obvious, &parquet_way, &best];
    race(width, &vec![0xA5; room.len()], &ways).measured
}
