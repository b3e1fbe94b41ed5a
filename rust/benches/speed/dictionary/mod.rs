//! Dictionary columns: scan and unpack over runs of indexes of different shapes.

mod best;
mod obvious;
mod page;
mod parquet_way;

use std::hint::black_box;

use cahermisk::{dictionary, Comparison};

use crate::column::{band, entries, ENTRIES};
use crate::race::{race, Way};
use crate::runs::stream::Shape;
use crate::table::{Measured, Table};

/// The widths that a dictionary's indexes need.
const WIDTHS: [u32; 14] = [1, 2, 3, 4, 5, 6, 7, 8, 9, 10, 11, 12, 13, 14];

/// Three quarters of the values that indexes of a width count, as a dictionary might have, or all of them: then no
/// index can be too large.
#[derive(Clone, Copy)]
enum Values {
    Most,
    All,
}

impl Values {
    fn count(self, width: u32) -> u32 {
        match self {
            Values::Most => (3u32 << width).div_ceil(4),
            Values::All => 1 << width,
        }
    }
}

const OTHERS: [&str; 3] = ["obvious", "parquet way", "best"];

const MIXTURE: &str = "repeated runs of 8 to 40 and packed runs of 1 to 8 groups";

/// Prints all tables, and gives those to be drawn.
pub fn report() -> Vec<Table> {
    println!("\nobvious: safe Rust, run by run, each index looked up and its value compared.");
    println!("parquet way: safe Rust, indexes read into a list, packed ones by eight with constant shifts; then each looked up and compared.");
    println!("best: the band's place among the values found once, and the indexes scanned as the best way scans a run stream; a repeated run looked up once.");
    println!("A width is that of the indexes; the dictionary has three quarters of the values that they count.");
    let mixed = scans(MIXTURE, Shape::Mixed, Values::Most);
    let all = format!("{MIXTURE}, as many values as the width counts");
    scans(&all, Shape::Mixed, Values::All);
    scans("long repeated runs", Shape::Long, Values::Most);
    let title = "Dictionary unpack, 16,384 entries, the same mixture";
    Table::of(title, &OTHERS, WIDTHS, unpack);
    vec![mixed]
}

fn scans(title: &str, shape: Shape, values: Values) -> Table {
    let title = format!("Dictionary scan, 16,384 entries, {title}");
    let measured = |width| scan(width, shape, values);
    Table::of(&title, &OTHERS, WIDTHS, measured)
}

/// The value of an index: values go up by 5, from below 0.
fn value(index: u32) -> i32 {
    5 * index as i32 - 1000
}

/// A dictionary and an index page without a pattern.
fn column(width: u32, shape: Shape, values: Values) -> (Vec<u8>, Vec<u8>) {
    let count = values.count(width);
    let indexes = entries(width).into_iter();
    let indexes: Vec<u32> = indexes.map(|index| (index * count) >> width).collect();
    let mut page = vec![width as u8];
    page.extend(shape.stream_of(&indexes, width));
    let dictionary = (0..count).flat_map(|index| value(index).to_le_bytes());
    (dictionary.collect(), page)
}

fn scan(width: u32, shape: Shape, values: Values) -> Measured {
    let (values, page) = column(width, shape, values);
    let (low, high) = band(width);
    let (low, high) = (value(low), value(high));
    let between = Comparison::between(low.into(), high.into());
    let ours = |bitmap: &mut [u8]| {
        let count = dictionary::scan(black_box(&values), &page, ENTRIES, between, bitmap);
        count.expect("a good column")
    };
    let obvious = |bitmap: &mut [u8]| {
        let count = obvious::scan(black_box(&values), &page, ENTRIES, low, high, bitmap);
        count.expect("a good column")
    };
    let parquet_way = |bitmap: &mut [u8]| {
        let count = parquet_way::scan(black_box(&values), &page, ENTRIES, low, high, bitmap);
        count.expect("a good column")
    };
    let best = |bitmap: &mut [u8]| {
        best::scan(black_box(&values), &page, low, high, bitmap).expect("a good column")
    };
    let ways: [Way<u8>; 4] = [&ours, &obvious, &parquet_way, &best];
    race(width, &[0xA5; ENTRIES / 8], &ways).measured
}

fn unpack(width: u32) -> Measured {
    let (values, page) = column(width, Shape::Mixed, Values::Most);
    let ours = |list: &mut [i32]| {
        dictionary::unpack(black_box(&values), &page, ENTRIES, list).expect("a good column")
    };
    let obvious =
        |list: &mut [i32]| obvious::unpack(black_box(&values), &page, list).expect("a good column");
    let parquet_way = |list: &mut [i32]| {
        parquet_way::unpack(black_box(&values), &page, list).expect("a good column")
    };
    let best =
        |list: &mut [i32]| best::unpack(black_box(&values), &page, list).expect("a good column");
    let ways: [Way<i32>; 4] = [&ours, &obvious, &parquet_way, &best];
    race(width, &[0xA5; ENTRIES], &ways).measured
}
