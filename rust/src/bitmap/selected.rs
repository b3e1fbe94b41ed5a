//! The numbers of the selected entries, 64 bits of the bitmap at a time.

use core::iter::FusedIterator;

use super::word::Word;

/// The numbers of the selected entries of a [`Bitmap`](crate::Bitmap), ascending.
#[derive(Clone, Debug)]
#[must_use = "iterators are lazy and do nothing unless consumed"]
pub struct Selected<'a> {
    bytes: &'a [u8],
    /// How many are still to be given. The two ends do not pass each other: both stop when none is left.
    left: usize,
    front: Word,
    back: Word,
}

impl Selected<'_> {
    /// `count` bits of the bytes are set.
    pub(crate) fn of(bytes: &[u8], count: usize) -> Selected<'_> {
        let last = bytes.len() / 8 * 64;
        Selected {
            bytes,
            left: count,
            front: Word::at(bytes, 0).unwrap_or_default(),
            back: Word::at(bytes, last).unwrap_or_default(),
        }
    }
}

impl Iterator for Selected<'_> {
    type Item = usize;

    #[inline]
    fn next(&mut self) -> Option<usize> {
        self.left = self.left.checked_sub(1)?;
        while self.front.bits == 0 {
            self.front = self.front.after(self.bytes)?;
        }
        let Word { first, bits } = self.front;
        self.front.bits = bits & (bits - 1);
        Some(first + bits.trailing_zeros() as usize)
    }

    #[inline]
    fn size_hint(&self) -> (usize, Option<usize>) {
        (self.left, Some(self.left))
    }
}

impl DoubleEndedIterator for Selected<'_> {
    #[inline]
    fn next_back(&mut self) -> Option<usize> {
        self.left = self.left.checked_sub(1)?;
        while self.back.bits == 0 {
            self.back = Word::at(self.bytes, self.back.first.checked_sub(64)?)?;
        }
        let Word { first, bits } = self.back;
        let highest = bits.ilog2();
        self.back.bits = bits ^ 1 << highest;
        Some(first + highest as usize)
    }
}

impl ExactSizeIterator for Selected<'_> {}

impl FusedIterator for Selected<'_> {}
