//! Scans of bit planes: at every width, and of other bands and another column at some.

use std::hint::black_box;

use cahermisk::{vertical, Comparison};

use super::{best, obvious, paper, planes, sparing};
use crate::column::{band, entries, greatest, level, ENTRIES};
use crate::race::{race, Way};
use crate::table::{Measured, Table};

const WIDTHS: [u32; 5] = [8, 13, 16, 24, 32];

/// The entries of a width, and the ends of a band for it.
#[derive(Clone, Copy)]
struct Case {
    entries: fn(u32) -> Vec<u32>,
    band: fn(u32) -> (i64, i64),
}

const HALF: Case = Case {
    entries,
    band: |width| {
        let (low, high) = band(width);
        (low.into(), high.into())
    },
};

/// Of fewer than 1,024 numbers the highest one.
const RARE: Case = Case {
    entries,
    band: |width| {
        let greatest = greatest(width).into();
        (greatest - greatest / 1024, greatest)
    },
};

const ONE_OUTSIDE: Case = Case {
    entries,
    band: |width| {
        let greatest = i64::from(greatest(width));
        (greatest / 4, greatest + 1)
    },
};

const BOTH_OUTSIDE: Case = Case {
    entries,
    band: |width| (-1, i64::from(greatest(width)) + 1),
};

const LEVEL: Case = Case {
    entries: level,
    ..HALF
};

/// Prints all tables, and gives the one to be drawn.
pub fn report() -> Table {
    let drawn = table("a band of half the numbers", 1..=32, HALF);
    let others = [
        (
            "the highest 1,024th of the numbers (at width 8 the highest)",
            RARE,
        ),
        (
            "from a quarter of the numbers to a constant above them",
            ONE_OUTSIDE,
        ),
        ("both constants outside the numbers", BOTH_OUTSIDE),
        ("a level that moves by at most 1, the band of half", LEVEL),
    ];
    for (title, case) in others {
        table(title, WIDTHS, case);
    }
    drawn
}

fn table(title: &str, widths: impl IntoIterator<Item = u32>, case: Case) -> Table {
    let title = format!("Vertical scan, 16,384 entries, {title}");
    let others = &["obvious", "all planes", "early exit", "best", "same rule"];
    Table::with_planes(&title, others, widths, |width| scan(width, case))
}

fn scan(width: u32, case: Case) -> Measured {
    let entries = (case.entries)(width);
    let words = vertical::pack_to_vec(&entries, width).expect("the entries fit the width");
    let (low, high) = (case.band)(width);
    let between = Comparison::between(low, high);
    let nearest = |end: i64| end.clamp(0, greatest(width).into()) as u32;
    let (from, to) = (nearest(low), nearest(high));
    let ours = |bitmap: &mut [u8]| {
        vertical::scan(black_box(&words), width, ENTRIES, between, bitmap).expect("good planes")
    };
    let obvious = |bitmap: &mut [u8]| obvious::scan(black_box(&words), width, from, to, bitmap);
    let all_planes =
        |bitmap: &mut [u8]| paper::scan::<false>(black_box(&words), width, from, to, bitmap);
    let early_exit =
        |bitmap: &mut [u8]| paper::scan::<true>(black_box(&words), width, from, to, bitmap);
    let best = |bitmap: &mut [u8]| best::scan(black_box(&words), width, from, to, bitmap);
    let same_rule = |bitmap: &mut [u8]| sparing::scan(black_box(&words), width, low, high, bitmap);
    let ways: [Way<u8>; 6] = [&ours, &obvious, &all_planes, &early_exit, &best, &same_rule];
    Measured {
        planes: Some(planes::mean(&entries, width, [low, high])),
        ..race(width, &[0xA5; ENTRIES / 8], &ways).measured
    }
}
