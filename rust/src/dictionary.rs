//! Dictionary columns: signed 32-bit entries, kept as indexes of a dictionary.
//!
//! A dictionary is its values in 4 bytes each, low byte first, strictly ascending; it may have
//! [`MAX_DICTIONARY_BYTES`](crate::MAX_DICTIONARY_BYTES), or be empty. An index page is a width byte, 0 to
//! 32, and then a [run stream](crate::runs) of indexes of that width. Each entry is the value that its
//! index counts to, from 0 on.
//!
//! [`scan`] finds the comparison's place among the values once, and compares indexes from there on.

use alloc::vec::Vec;

use crate::ffi::dictionary as ffi;
use crate::layout::{to_bitmap, to_vec};
use crate::{Bitmap, Comparison, Refusal, MAX_ENTRIES};

/// Compares the `n` entries of a column and writes the selection to the first ceil(n / 8) bytes of
/// `bitmap`; later bytes are kept. Gives the number of selected entries.
///
#[doc = include_str!("refusal/reading_dictionary.md")]
///
/// # Examples
///
/// ```
/// use cahermisk::{dictionary, Comparison, Refusal};
///
/// let values = [-120i32, 0, 85, 310].map(i32::to_le_bytes).concat();
/// // Indexes of two bits: 3 three times, and then a group of eight, of which 0, 1, 2 are asked for.
/// let page = [0x02, 0x06, 0x03, 0x03, 0x24, 0x00];
/// let mut bitmap = [0; 1];
/// assert_eq!(dictionary::scan(&values, &page, 6, Comparison::less(85), &mut bitmap), Ok(2));
/// assert_eq!(bitmap, [0b01_1000]);
///
/// // Without the 310 there is no value for index 3.
/// let refused = dictionary::scan(&values[..12], &page, 6, Comparison::less(85), &mut bitmap);
/// assert_eq!(refused, Err(Refusal::IndexTooLarge));
/// assert_eq!(bitmap, [0b01_1000]);
/// ```
pub fn scan(
    dictionary: &[u8],
    page: &[u8],
    n: usize,
    comparison: Comparison,
    bitmap: &mut [u8],
) -> Result<usize, Refusal> {
    ffi::scan(dictionary, page, n, comparison, bitmap)
}

/// Compares the `n` entries of a column, and gives the selection as a new [`Bitmap`].
///
/// # Errors
///
/// Those of [`scan`], but for [`OutputTooShort`](Refusal::OutputTooShort).
///
/// # Examples
///
/// ```
/// use cahermisk::{dictionary, Comparison};
///
/// let values = [i32::MIN, -1, i32::MAX].map(i32::to_le_bytes).concat();
/// // One group of indexes of two bits: 2, 1, 0, 2, and four times 0.
/// let page = [0x02, 0x03, 0b1000_0110, 0x00];
/// let selection = dictionary::scan_to_bitmap(&values, &page, 8, Comparison::greater(-1))?;
/// assert_eq!(selection.selected().collect::<Vec<_>>(), [0, 3]);
/// # Ok::<(), cahermisk::Refusal>(())
/// ```
pub fn scan_to_bitmap(
    dictionary: &[u8],
    page: &[u8],
    n: usize,
    comparison: Comparison,
) -> Result<Bitmap, Refusal> {
    to_bitmap(n, |bitmap| scan(dictionary, page, n, comparison, bitmap))
}

/// Writes the `n` entries of a column to the first `n` places of `entries`; the others are kept.
/// Gives `n`.
///
#[doc = include_str!("refusal/reading_dictionary.md")]
///
/// # Examples
///
/// ```
/// use cahermisk::dictionary;
///
/// let values = [-120i32, 0, 85, 310].map(i32::to_le_bytes).concat();
/// let mut entries = [99; 4];
/// assert_eq!(dictionary::unpack(&values, &[0x02, 0x06, 0x03], 3, &mut entries), Ok(3));
/// assert_eq!(entries, [310, 310, 310, 99]);
/// ```
pub fn unpack(
    dictionary: &[u8],
    page: &[u8],
    n: usize,
    entries: &mut [i32],
) -> Result<usize, Refusal> {
    ffi::unpack(dictionary, page, n, entries)
}

/// Gives the `n` entries of a column as a new `Vec`.
///
/// # Errors
///
/// Those of [`unpack`], but for [`OutputTooShort`](Refusal::OutputTooShort).
///
/// # Examples
///
/// ```
/// use cahermisk::{dictionary, Refusal};
///
/// // One value needs no bits for its index.
/// let seven = 7i32.to_le_bytes();
/// assert_eq!(dictionary::unpack_to_vec(&seven, &[0x00, 0x08], 4), Ok(vec![7; 4]));
/// // Values ascend, and none stands there twice.
/// let twice = [seven, seven].concat();
/// let refused = dictionary::unpack_to_vec(&twice, &[0x00, 0x08], 4);
/// assert_eq!(refused, Err(Refusal::MalformedDictionary));
/// ```
pub fn unpack_to_vec(dictionary: &[u8], page: &[u8], n: usize) -> Result<Vec<i32>, Refusal> {
    to_vec(n.min(MAX_ENTRIES), |entries| {
        unpack(dictionary, page, n, entries)
    })
}
