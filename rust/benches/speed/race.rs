//! Several ways to do one job: first held to one result, then timed.

use std::fmt::{Debug, Display};
use std::hint::black_box;

use crate::clock::time;
use crate::column::ENTRIES;
use crate::steps;
use crate::table::Measured;

/// One way: it writes to the place lent, and gives a number.
pub type Way<'a, T> = &'a dyn Fn(&mut [T]) -> usize;

/// What was measured of each way, and what they all wrote.
pub struct Raced<T> {
    pub measured: Measured,
    pub written: Vec<T>,
}

/// Each way has a place of its own like `room`.
pub fn race<T>(row: impl Display, room: &[T], ways: &[Way<T>]) -> Raced<T>
where
    T: Clone + Debug + PartialEq,
{
    let mut places = vec![room.to_vec(); ways.len()];
    let numbers = ways.iter().zip(&mut places).map(|(way, place)| way(place));
    let numbers: Vec<usize> = numbers.collect();
    assert_eq!(numbers, vec![numbers[0]; ways.len()], "row {row}");
    let written = places[0].clone();
    assert!(places.iter().all(|p| *p == written), "row {row}");

    let timed = ways.iter().zip(&mut places);
    let timed = timed.map(|(way, place)| move || _ = black_box(way(black_box(place))));
    let mut timed: Vec<_> = timed.collect();
    let taken = time(ENTRIES, &mut timed);
    let instructions = steps::an_entry(ENTRIES, &mut timed[0]);
    Raced {
        measured: Measured {
            taken,
            instructions,
            planes: None,
        },
        written,
    }
}
