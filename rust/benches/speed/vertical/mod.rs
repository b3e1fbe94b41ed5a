//! Bit planes: scan at every width, unpack and pack at some.

mod best;
mod obvious;
mod paper;
mod planes;
mod scans;
mod sparing;

use std::hint::black_box;

use cahermisk::vertical;

use crate::column::{entries, ENTRIES, SOME_WIDTHS};
use crate::race::{race, Way};
use crate::table::{Measured, Table};

/// Prints all tables, and gives those to be drawn.
pub fn report() -> Vec<Table> {
    println!("\nobvious: safe Rust, one entry after another, each bit from its own plane.");
    println!("all planes, early exit: the paper's listing in Rust, 64 entries at once, without and with its early exit. Parquet has no bit planes.");
    println!("paper: its listings of unpack, entry by entry, and pack, plane by plane, in Rust.");
    println!("best: by constants for each width, all planes compared from the lowest up, four groups at once; blocks of bits turned over to unpack and pack.");
    println!("same rule: by constants for each width, a plane read only while a lane of its group is undecided against a constant, as ours does; what a plane does is settled once by the constants' bits, and four groups are read side by side until one is settled.");
    println!("planes: how many planes of a group are taken by that rule, the mean over the groups. A constant outside the width's numbers leaves no lane undecided; but for ours and the same rule, the nearest of them stands for it.");
    let scans = scans::report();
    let others = &["obvious", "paper", "best"];
    let title = "Vertical unpack, 16,384 entries";
    Table::of(title, others, SOME_WIDTHS, unpack);
    Table::of("Vertical pack, 16,384 entries", others, SOME_WIDTHS, pack);
    vec![scans]
}

fn words(width: u32) -> Vec<u64> {
    vertical::pack_to_vec(&entries(width), width).expect("the entries fit the width")
}

fn unpack(width: u32) -> Measured {
    let words = words(width);
    let ours = |list: &mut [u32]| {
        vertical::unpack(black_box(&words), width, ENTRIES, list).expect("good planes")
    };
    let obvious = |list: &mut [u32]| obvious::unpack(black_box(&words), width, list);
    let paper = |list: &mut [u32]| paper::unpack(black_box(&words), width, list);
    let best = |list: &mut [u32]| best::unpack(black_box(&words), width, list);
    let ways: [Way<u32>; 4] = [&ours, &obvious, &paper, &best];
    let raced = race(width, &[0xA5; ENTRIES], &ways);
    assert_eq!(raced.written, entries(width), "width {width}");
    raced.measured
}

fn pack(width: u32) -> Measured {
    let entries = entries(width);
    let ours = |words: &mut [u64]| {
        vertical::pack(black_box(&entries), width, words).expect("the entries fit the width")
    };
    let obvious = |words: &mut [u64]| {
        obvious::pack(black_box(&entries), width, words).expect("the entries fit the width")
    };
    let paper = |words: &mut [u64]| {
        paper::pack(black_box(&entries), width, words).expect("the entries fit the width")
    };
    let best = |words: &mut [u64]| {
        best::pack(black_box(&entries), width, words).expect("the entries fit the width")
    };
    let room = vec![0xA5; words(width).len()];
    let ways: [Way<u64>; 4] = [&ours, &obvious, &paper, &best];
    race(width, &room, &ways).measured
}
