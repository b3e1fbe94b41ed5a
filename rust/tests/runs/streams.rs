//! Streams that this library's writer would not write.

use crate::reader::runs::{packed_run, repeated_run};
use crate::support::random::Random;
use crate::support::spelling::any_spelling;

/// A length from 1 to `most`, seldom a long one.
fn length(most: usize, random: &mut Random) -> usize {
    let limit = random.pick(&[1, 3, 20, 20, most]);
    1 + random.below(limit.min(most))
}

/// Repeated runs of any length.
pub fn some_repeated_run(width: u32, count: usize, random: &mut Random) -> Vec<u8> {
    repeated_run_below(1 << width, width, count, random)
}

/// Packed runs of any bits, also past n.
pub fn some_packed_run(width: u32, groups: usize, random: &mut Random) -> Vec<u8> {
    packed_run_below(1 << width, width, groups, 0, random)
}

/// Any entry below a limit, repeated.
fn repeated_run_below(limit: u64, width: u32, count: usize, random: &mut Random) -> Vec<u8> {
    let value = (random.bits() % limit) as u32;
    repeated_run(&any_spelling(2 * count as u64, random), value, width)
}

/// Groups of which the first `left` entries are below a limit, and the others are anything.
fn packed_run_below(
    limit: u64,
    width: u32,
    groups: usize,
    left: usize,
    random: &mut Random,
) -> Vec<u8> {
    let mut entry = |i: usize| match random.bits() {
        bits if i < left => (bits % limit) as u32,
        bits => bits as u32,
    };
    let entries: Vec<u32> = (0..8 * groups).map(&mut entry).collect();
    packed_run(
        &any_spelling(2 * groups as u64 + 1, random),
        &entries,
        width,
    )
}

/// A stream of n entries cut into runs at random, the last one now and then past n.
pub fn of_another_writer(width: u32, n: usize, random: &mut Random) -> Vec<u8> {
    of_entries_below(1 << width, width, n, random)
}

/// The same of entries below a limit; what passes n is anything.
pub fn of_entries_below(limit: u64, width: u32, n: usize, random: &mut Random) -> Vec<u8> {
    let mut page = Vec::new();
    let mut left = n;
    while left > 0 {
        if random.once_in(2) {
            let count = length(left, random);
            page.extend(repeated_run_below(limit, width, count, random));
            left -= count;
        } else {
            let groups = length(left.div_ceil(8), random);
            page.extend(packed_run_below(limit, width, groups, left, random));
            left = left.saturating_sub(8 * groups);
        }
    }
    page
}
