//! Spans of a bitmap, and the bitmap of spans, over stretches of some shapes.

mod best;
mod obvious;
mod shape;

use std::hint::black_box;

use cahermisk::spans;

use crate::column::ENTRIES;
use crate::race::{race, Way};
use crate::table::{rows, Measured};
use shape::{Shape, SHAPES};

pub fn report() {
    println!("\nbit by bit: safe Rust, one entry after another.");
    println!("best: 64 entries at once, the places where a stretch begins or ends taken one by one from the word that has them; stretches gathered into words, long ones filled. A list is judged several pairs at once.");
    println!("Room for any list of that many entries needs no counting; where it is just enough, the pairs are counted first.");
    let others = &["bit by bit", "best"];
    let table = |title: &str, measure: fn(Shape) -> Measured| {
        rows(title, &["selected"], others, SHAPES, measure);
    };
    let title = "Spans of a bitmap, 16,384 entries, room for any list";
    table(title, |shape| listed(shape, spans::places(ENTRIES)));
    let title = "Spans of a bitmap, 16,384 entries, just enough room";
    table(title, |shape| listed(shape, shape.list().len()));
    table("Bitmap of spans, 16,384 entries", marked);
}

/// The spans of a bitmap, written to a list with so much room.
fn listed(shape: Shape, room: usize) -> Measured {
    let list = shape.list();
    let bitmap = shape.bitmap();
    let ours = |spans: &mut [u32]| {
        spans::from_bitmap(black_box(&bitmap), ENTRIES, spans).expect("there is room enough")
    };
    let obvious = |spans: &mut [u32]| {
        let count = obvious::from_bitmap(black_box(&bitmap), ENTRIES, spans);
        count.expect("there is room enough")
    };
    let best = |spans: &mut [u32]| {
        let count = best::from_bitmap(black_box(&bitmap), ENTRIES, spans);
        count.expect("there is room enough")
    };
    let ways: [Way<u32>; 3] = [&ours, &obvious, &best];
    let raced = race(shape, &vec![0xA5; room], &ways);
    assert_eq!(raced.written[..list.len()], list, "{shape}");
    raced.measured
}

/// The bitmap of a list of spans.
fn marked(shape: Shape) -> Measured {
    let list = shape.list();
    let ours = |bitmap: &mut [u8]| {
        spans::to_bitmap(black_box(&list), ENTRIES, bitmap).expect("a good list")
    };
    let obvious = |bitmap: &mut [u8]| {
        obvious::to_bitmap(black_box(&list), ENTRIES, bitmap).expect("a good list")
    };
    let best = |bitmap: &mut [u8]| {
        best::to_bitmap(black_box(&list), ENTRIES, bitmap).expect("a good list")
    };
    let ways: [Way<u8>; 3] = [&ours, &obvious, &best];
    let raced = race(shape, &[0xA5; ENTRIES / 8], &ways);
    assert_eq!(raced.written, shape.bitmap(), "{shape}");
    raced.measured
}
