//! What is selected of a bitmap: stretches, from one to as many as there may be.

use std::fmt;

use crate::column::{entries, ENTRIES};

#[derive(Clone, Copy)]
pub enum Shape {
    One,
    Hundred,
    Seldom,
    Short,
    Alternating,
}

pub const SHAPES: [Shape; 5] = [
    Shape::One,
    Shape::Hundred,
    Shape::Seldom,
    Shape::Short,
    Shape::Alternating,
];

impl fmt::Display for Shape {
    fn fmt(&self, f: &mut fmt::Formatter) -> fmt::Result {
        f.write_str(match self {
            Shape::One => "one stretch",
            Shape::Hundred => "100 stretches",
            Shape::Seldom => "one entry in 1,000",
            Shape::Short => "stretches and gaps of 1 to 15",
            Shape::Alternating => "every other entry",
        })
    }
}

impl Shape {
    /// The list of spans.
    pub fn list(self) -> Vec<u32> {
        match self {
            Shape::One => vec![1_000, 15_000],
            Shape::Hundred => even(163, 100),
            Shape::Seldom => even(1_000, 1),
            Shape::Short => short(),
            Shape::Alternating => even(2, 1),
        }
    }

    /// The bitmap of the list.
    pub fn bitmap(self) -> Vec<u8> {
        let mut bitmap = vec![0; ENTRIES / 8];
        for pair in self.list().chunks_exact(2) {
            for i in pair[0] as usize..=pair[1] as usize {
                bitmap[i / 8] |= 1 << (i % 8);
            }
        }
        bitmap
    }
}

/// Stretches of one length, as far apart.
fn even(apart: usize, length: usize) -> Vec<u32> {
    let firsts = (0..ENTRIES - length + 1).step_by(apart);
    firsts
        .flat_map(|first| [first as u32, (first + length - 1) as u32])
        .collect()
}

/// Stretches and gaps without a pattern, 8 entries in the mean.
fn short() -> Vec<u32> {
    let mut list = Vec::new();
    let mut at = 0;
    for lengths in entries(32).chunks_exact(2) {
        let first = at + lengths[0] % 15 + 1;
        let last = first + lengths[1] % 15;
        if last as usize >= ENTRIES {
            break;
        }
        list.extend([first, last]);
        at = last + 1;
    }
    list
}
