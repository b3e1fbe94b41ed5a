//! The stretches of selected entries, 64 bits of the bitmap at a time.

use core::iter::FusedIterator;
use core::ops::RangeInclusive;

use super::word::Word;

/// The maximal stretches of selected entries of a [`Bitmap`](crate::Bitmap), ascending.
#[derive(Clone, Debug)]
#[must_use = "iterators are lazy and do nothing unless consumed"]
pub struct Spans<'a> {
    bytes: &'a [u8],
    /// How many selected entries are in no stretch given so far.
    left: usize,
    word: Word,
}

impl Spans<'_> {
    /// `count` bits of the bytes are set, and none past the last entry.
    pub(super) fn of(bytes: &[u8], count: usize) -> Spans<'_> {
        Spans {
            bytes,
            left: count,
            word: Word::at(bytes, 0).unwrap_or_default(),
        }
    }
}

impl Iterator for Spans<'_> {
    type Item = RangeInclusive<usize>;

    #[inline]
    fn next(&mut self) -> Option<RangeInclusive<usize>> {
        if self.left == 0 {
            return None;
        }
        while self.word.bits == 0 {
            self.word = self.word.after(self.bytes)?;
        }
        let Word { first, bits } = self.word;
        let begin = first + bits.trailing_zeros() as usize;
        // With the bits below it set too, the stretch ends where the first 0 is.
        let mut filled = bits | (bits - 1);
        while filled == u64::MAX {
            self.word = self.word.after(self.bytes)?;
            filled = self.word.bits;
        }
        let end = self.word.first + filled.trailing_ones() as usize;
        self.word.bits = filled & (filled + 1);
        self.left -= end - begin;
        Some(begin..=end - 1)
    }

    /// One stretch has all that are left, or each is one by itself.
    #[inline]
    fn size_hint(&self) -> (usize, Option<usize>) {
        (self.left.min(1), Some(self.left))
    }
}

impl FusedIterator for Spans<'_> {}

/// The two numbers of a span, as a list has them. A range that is empty, or whose numbers a list cannot
/// hold, becomes a pair that is refused with any number of entries.
pub(super) fn pair(range: RangeInclusive<usize>) -> [u32; 2] {
    if range.is_empty() {
        return [1, 0];
    }
    let number = |entry: &usize| u32::try_from(*entry).unwrap_or(u32::MAX);
    [number(range.start()), number(range.end())]
}
