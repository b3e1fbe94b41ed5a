//! Bit planes: entries of 0 to 32 bits in groups of 64, one word for each bit of a group.
//!
//! A group is as many 64-bit words as its entries have bits, the most significant bit first; entry j
//! of the group is bit j, lowest first, of each word. The planes of n entries have exactly
//! ceil(n / 64) × width words, and the lanes of the last group after entry n − 1 are 0.

use alloc::vec::Vec;

use crate::ffi::VERTICAL;
use crate::layout::within_limits;
use crate::{Bitmap, Comparison, Refusal};

/// The words of the planes of `n` entries, ceil(n / 64) × width; 0 past the limits.
///
/// ```
/// use cahermisk::vertical;
///
/// let mut words = [0; vertical::page_words(2, 65)];
/// assert_eq!(vertical::pack(&[3; 65], 2, &mut words), Ok(4));
/// assert_eq!(vertical::page_words(33, 65), 0);
/// ```
#[must_use]
pub const fn page_words(width: u32, n: usize) -> usize {
    if !within_limits(width, n) {
        return 0;
    }
    n.div_ceil(64) * width as usize
}

/// Compares the `n` entries of `words` and writes the selection to the first ceil(n / 8) bytes of
/// `bitmap`; later bytes are kept. Gives the number of selected entries.
///
#[doc = include_str!("refusal/reading_bare.md")]
///
/// # Examples
///
/// ```
/// use cahermisk::{vertical, Comparison, Refusal};
///
/// // The entries 1, 2, 3, two bits each.
/// let words = [0b110, 0b101];
/// let mut bitmap = [0u8; 1];
/// assert_eq!(vertical::scan(&words, 2, 3, Comparison::greater_or_equal(2), &mut bitmap), Ok(2));
/// assert_eq!(bitmap, [0b110]);
///
/// let refused = vertical::scan(&words[..1], 2, 3, Comparison::less(3), &mut bitmap);
/// assert_eq!(refused, Err(Refusal::InputEndsTooEarly));
/// assert_eq!(bitmap, [0b110]);
/// ```
pub fn scan(
    words: &[u64],
    width: u32,
    n: usize,
    comparison: Comparison,
    bitmap: &mut [u8],
) -> Result<usize, Refusal> {
    VERTICAL.scan(words, width, n, comparison, bitmap)
}

/// Compares the `n` entries of `words`, and gives the selection as a new [`Bitmap`].
///
/// # Errors
///
/// Those of [`scan`], but for [`OutputTooShort`](Refusal::OutputTooShort).
///
/// # Examples
///
/// ```
/// use cahermisk::{vertical, Comparison};
///
/// let selection = vertical::scan_to_bitmap(&[0b110, 0b101], 2, 3, Comparison::not_equal(2))?;
/// assert_eq!(selection.as_bytes(), [0b101]);
/// assert_eq!(selection.count(), 2);
/// # Ok::<(), cahermisk::Refusal>(())
/// ```
pub fn scan_to_bitmap(
    words: &[u64],
    width: u32,
    n: usize,
    comparison: Comparison,
) -> Result<Bitmap, Refusal> {
    VERTICAL.scan_to_bitmap(words, width, n, comparison)
}

/// Writes the `n` entries of `words` to the first `n` places of `entries`; the others are kept.
/// Gives `n`.
///
#[doc = include_str!("refusal/reading_bare.md")]
///
/// # Examples
///
/// ```
/// use cahermisk::vertical;
///
/// let mut entries = [99; 4];
/// assert_eq!(vertical::unpack(&[0b110, 0b101], 2, 3, &mut entries), Ok(3));
/// assert_eq!(entries, [1, 2, 3, 99]);
/// ```
pub fn unpack(words: &[u64], width: u32, n: usize, entries: &mut [u32]) -> Result<usize, Refusal> {
    VERTICAL.unpack(words, width, n, entries)
}

/// Gives the `n` entries of `words` as a new `Vec`.
///
/// # Errors
///
/// Those of [`unpack`], but for [`OutputTooShort`](Refusal::OutputTooShort).
///
/// # Examples
///
/// ```
/// use cahermisk::vertical;
///
/// let entries = vertical::unpack_to_vec(&[0b110, 0b101], 2, 3)?;
/// assert_eq!(entries, [1, 2, 3]);
/// # Ok::<(), cahermisk::Refusal>(())
/// ```
pub fn unpack_to_vec(words: &[u64], width: u32, n: usize) -> Result<Vec<u32>, Refusal> {
    VERTICAL.unpack_to_vec(words, width, n)
}

/// Packs all of `entries` to the front of `words`; the words after them are kept. Gives the number of
/// words written, which is [`page_words`].
///
#[doc = include_str!("refusal/packing.md")]
///
/// # Examples
///
/// ```
/// use cahermisk::{vertical, Refusal};
///
/// let mut words = [99; 3];
/// assert_eq!(vertical::pack(&[1, 2, 3], 2, &mut words), Ok(2));
/// assert_eq!(words, [0b110, 0b101, 99]);
/// assert_eq!(vertical::pack(&[4], 2, &mut words), Err(Refusal::ValueTooLarge));
/// ```
pub fn pack(entries: &[u32], width: u32, words: &mut [u64]) -> Result<usize, Refusal> {
    VERTICAL.pack(entries, width, words)
}

/// Packs all of `entries` to new words.
///
/// # Errors
///
/// Those of [`pack`], but for [`OutputTooShort`](Refusal::OutputTooShort).
///
/// # Examples
///
/// ```
/// use cahermisk::vertical;
///
/// let words = vertical::pack_to_vec(&[1, 2, 3], 2)?;
/// assert_eq!(words, [0b110, 0b101]);
/// # Ok::<(), cahermisk::Refusal>(())
/// ```
pub fn pack_to_vec(entries: &[u32], width: u32) -> Result<Vec<u64>, Refusal> {
    VERTICAL.pack_to_vec(entries, width, page_words)
}
