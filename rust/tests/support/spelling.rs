//! Variable-length numbers in all their spellings.

use super::random::Random;
use crate::reader::numbers::shortest;

/// A number in so many bytes, at least as many as it needs.
pub fn spelled(number: u64, bytes: usize) -> Vec<u8> {
    let more = |k: usize| if k + 1 < bytes { 0x80 } else { 0 };
    (0..bytes)
        .map(|k| (number >> (7 * k) & 0x7F) as u8 | more(k))
        .collect()
}

/// A number, now and then in more bytes than it needs.
pub fn any_spelling(number: u64, random: &mut Random) -> Vec<u8> {
    let least = shortest(number).len();
    let bytes = match random.once_in(3) {
        true => least + random.below(6 - least),
        false => least,
    };
    spelled(number, bytes)
}
