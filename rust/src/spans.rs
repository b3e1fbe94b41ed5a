//! Spans: the stretches of selected entries, in the place of bits.
//!
//! A span is a maximal stretch of selected entries, told by its first entry and its last, which are the
//! same for a stretch of one. A list of spans is these numbers, two for each, ascending; between two spans
//! at least one entry is not selected.
//!
//! [`from_bitmap`] and [`to_bitmap`] undo each other, where the bits past the last entry are 0. A
//! [`Bitmap`](crate::Bitmap) gives its own spans as ranges, by [`Bitmap::spans`](crate::Bitmap::spans), and
//! is made of them by [`Bitmap::from_spans`](crate::Bitmap::from_spans).

use alloc::vec::Vec;

use crate::ffi::spans as ffi;
use crate::layout::to_vec;
use crate::{Refusal, MAX_ENTRIES};

/// Numbers that are enough for the list of any bitmap of `n` entries, two for each other entry:
/// 2 × ceil(n / 2); 0 past the limit.
///
/// ```
/// use cahermisk::spans;
///
/// let mut list = [0; spans::places(5)];
/// assert_eq!(spans::from_bitmap(&[0b10101], 5, &mut list), Ok(3));
/// assert_eq!(list, [0, 0, 2, 2, 4, 4]);
/// assert_eq!(spans::places(16_385), 0);
/// ```
#[must_use]
pub const fn places(n: usize) -> usize {
    if n > MAX_ENTRIES {
        return 0;
    }
    2 * n.div_ceil(2)
}

/// Writes the spans of the first `n` entries of `bitmap` to the front of `spans`; the places after them
/// are kept. Gives the number of spans, two places each, which depends on the bitmap: [`places`] are
/// enough.
///
/// Set bits past `n`, in the last byte or in later ones, are not read: a span that would go on there ends
/// with `n` − 1.
///
/// # Errors
///
/// The first that holds of [`TooManyEntries`](Refusal::TooManyEntries),
/// [`InputEndsTooEarly`](Refusal::InputEndsTooEarly) for a bitmap of fewer than ceil(n / 8) bytes,
/// [`OutputTooShort`](Refusal::OutputTooShort).
///
/// # Examples
///
/// ```
/// use cahermisk::{spans, Refusal};
///
/// // Two stretches: 2 to 5, and 9 to 11, which is the last entry.
/// let bitmap = [0b0011_1100, 0b1111_1110];
/// let mut list = [99; 5];
/// assert_eq!(spans::from_bitmap(&bitmap, 12, &mut list), Ok(2));
/// assert_eq!(list, [2, 5, 9, 11, 99]);
///
/// let refused = spans::from_bitmap(&bitmap, 12, &mut list[..3]);
/// assert_eq!(refused, Err(Refusal::OutputTooShort));
/// ```
pub fn from_bitmap(bitmap: &[u8], n: usize, spans: &mut [u32]) -> Result<usize, Refusal> {
    ffi::from_bitmap(bitmap, n, spans)
}

/// Gives the spans of the first `n` entries of `bitmap` as a new list, two numbers for each.
///
/// # Errors
///
/// Those of [`from_bitmap`], but for [`OutputTooShort`](Refusal::OutputTooShort).
///
/// # Examples
///
/// ```
/// use cahermisk::spans;
///
/// let list = spans::from_bitmap_to_vec(&[0b0011_1100, 0b1111_1110], 12)?;
/// assert_eq!(list, [2, 5, 9, 11]);
/// let pairs: Vec<_> = list.chunks_exact(2).map(|pair| (pair[0], pair[1])).collect();
/// assert_eq!(pairs, [(2, 5), (9, 11)]);
/// # Ok::<(), cahermisk::Refusal>(())
/// ```
pub fn from_bitmap_to_vec(bitmap: &[u8], n: usize) -> Result<Vec<u32>, Refusal> {
    to_vec(places(n), |spans| {
        let pairs = from_bitmap(bitmap, n, spans)?;
        Ok(2 * pairs)
    })
}

/// Writes the bitmap of `n` entries in which just those of the spans are selected to the first
/// ceil(n / 8) bytes of `bitmap`; later bytes are kept. Gives the number of selected entries.
///
/// # Errors
///
/// The first that holds of [`TooManyEntries`](Refusal::TooManyEntries),
/// [`InputEndsTooEarly`](Refusal::InputEndsTooEarly) for a list of odd length,
/// [`OutputTooShort`](Refusal::OutputTooShort), [`SpansMisplaced`](Refusal::SpansMisplaced).
///
/// # Examples
///
/// ```
/// use cahermisk::{spans, Refusal};
///
/// let mut bitmap = [0xA5; 3];
/// assert_eq!(spans::to_bitmap(&[2, 5, 9, 11], 12, &mut bitmap), Ok(7));
/// assert_eq!(bitmap, [0b0011_1100, 0b1110, 0xA5]);
///
/// // These two touch, and would be one.
/// let refused = spans::to_bitmap(&[0, 2, 3, 5], 12, &mut bitmap);
/// assert_eq!(refused, Err(Refusal::SpansMisplaced));
/// assert_eq!(bitmap, [0b0011_1100, 0b1110, 0xA5]);
/// ```
pub fn to_bitmap(spans: &[u32], n: usize, bitmap: &mut [u8]) -> Result<usize, Refusal> {
    ffi::to_bitmap(spans, n, bitmap)
}
