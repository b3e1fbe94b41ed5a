//! Pages to call with, and constants to compare their entries with.

use super::layout::Layout;
use crate::support::random::Random;

/// The counts around which a byte, a word, two words and the limit lie.
pub const SMALL_COUNTS: [usize; 11] = [0, 1, 7, 8, 9, 63, 64, 65, 127, 128, 129];
pub const LARGE_COUNTS: [usize; 3] = [1000, 16_383, 16_384];

#[derive(Clone, Copy, Debug)]
pub enum Kind {
    Random,
    Zeros,
    Ones,
    Ascending,
    Stretches,
}

pub const KINDS: [Kind; 5] = [
    Kind::Random,
    Kind::Zeros,
    Kind::Ones,
    Kind::Ascending,
    Kind::Stretches,
];

/// The greatest entry of a width.
pub fn greatest(width: u32) -> u32 {
    ((1u64 << width) - 1) as u32
}

pub fn entries(kind: Kind, width: u32, n: usize, random: &mut Random) -> Vec<u32> {
    let mut last = 0;
    let make = |i: usize| match kind {
        Kind::Random => random.bits() as u32,
        Kind::Zeros => 0,
        Kind::Ones => u32::MAX,
        Kind::Ascending => i as u32,
        Kind::Stretches => {
            if random.once_in(8) {
                last = random.bits() as u32;
            }
            last
        }
    };
    (0..n).map(make).map(|e| e & greatest(width)).collect()
}

/// A good page of n entries.
pub fn page<L: Layout>(kind: Kind, width: u32, n: usize, random: &mut Random) -> Vec<L::Unit> {
    match kind {
        Kind::Random => L::random_page(width, n, random),
        _ => L::page_of(&entries(kind, width, n, random), width),
    }
}

/// Constants where a comparison may go wrong: the ends of all number ranges on the way, one of the page's
/// entries with its neighbours, and numbers that look like that entry once they are cut.
pub fn constants(entries: &[u32], width: u32, random: &mut Random) -> Vec<i64> {
    let x = match entries {
        [] => 0,
        some => i64::from(random.pick(some)),
    };
    let power = 1i64 << width;
    let mut all = vec![i64::MIN, i64::MIN + 1, -(1 << 32), -1, 0, 1];
    all.extend([power - 1, power, power + x, x - power, (1 << 32) + x]);
    all.extend([(1 << 31) - 1, 1 << 31, (1 << 32) - 1, 1 << 32]);
    all.extend([x - 1, x, x + 1, i64::MAX - 1, i64::MAX]);
    all.extend([x | i64::MIN, random.bits() as i64]);
    all.push(random.below(power as usize) as i64);
    all
}
