//! Bitmaps of all densities, and lists of spans.

use crate::support::random::Random;

/// Counts about the ends of bytes and words, and of all that there may be.
pub const COUNTS: [usize; 30] = [
    0, 1, 2, 7, 8, 9, 15, 16, 17, 31, 32, 33, 55, 56, 57, 63, 64, 65, 71, 72, 73, 120, 127, 128,
    129, 191, 192, 193, 256, 1000,
];
pub const LARGE_COUNTS: [usize; 5] = [16_320, 16_321, 16_377, 16_383, 16_384];

/// How often a selected entry is followed by one that is not, and the other way round: once in so many.
#[derive(Clone, Copy, Debug)]
pub struct Density {
    pub ends: usize,
    pub begins: usize,
}

/// From a few entries alone to a few gaps alone; among them every other entry, and stretches of many words.
pub const DENSITIES: [Density; 8] = [
    density(1, 1000),
    density(1, 30),
    density(1, 1),
    density(2, 2),
    density(8, 8),
    density(300, 300),
    density(1000, 20),
    density(5000, 1),
];

const fn density(ends: usize, begins: usize) -> Density {
    Density { ends, begins }
}

/// A bitmap of so many bytes: each of its bits is as the one before, or not.
pub fn bitmap(density: Density, bytes: usize, random: &mut Random) -> Vec<u8> {
    let mut selected = random.once_in(2);
    let mut byte = || {
        let mut byte = 0;
        for k in 0..8 {
            let changes = if selected {
                density.ends
            } else {
                density.begins
            };
            selected ^= random.once_in(changes);
            byte |= u8::from(selected) << k;
        }
        byte
    };
    (0..bytes).map(|_| byte()).collect()
}

/// A good list below n, of stretches and gaps that are like those of a bitmap.
pub fn list(density: Density, n: usize, random: &mut Random) -> Vec<u32> {
    let mut list = Vec::new();
    let mut from = 0;
    loop {
        let first = from + random.below(2 * density.begins);
        let last = first + random.below(2 * density.ends);
        if last >= n {
            return list;
        }
        list.extend([first as u32, last as u32]);
        from = last + 2;
    }
}
