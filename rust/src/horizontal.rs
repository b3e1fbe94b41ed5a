//! Bare horizontal pages: entries of 0 to 32 bits, laid end to end, lowest bit first.
//!
//! Entry i takes the bits i × width to i × width + width − 1 of the page, bytes in order. A page of
//! n entries has exactly ceil(n × width / 8) bytes, and the unused bits of the last one are 0.

use alloc::vec::Vec;

use crate::ffi::HORIZONTAL;
use crate::layout::within_limits;
use crate::{Bitmap, Comparison, Refusal};

/// The bytes of the page of `n` entries, ceil(n × width / 8); 0 past the limits.
///
/// ```
/// use cahermisk::horizontal;
///
/// let mut page = [0; horizontal::page_bytes(3, 9)];
/// assert_eq!(horizontal::pack(&[7; 9], 3, &mut page), Ok(4));
/// assert_eq!(horizontal::page_bytes(33, 9), 0);
/// ```
#[must_use]
pub const fn page_bytes(width: u32, n: usize) -> usize {
    if !within_limits(width, n) {
        return 0;
    }
    (n * width as usize).div_ceil(8)
}

/// Compares the `n` entries of `page` and writes the selection to the first ceil(n / 8) bytes of
/// `bitmap`; later bytes are kept. Gives the number of selected entries.
///
#[doc = include_str!("refusal/reading_bare.md")]
///
/// # Examples
///
/// ```
/// use cahermisk::{horizontal, Comparison, Refusal};
///
/// let page = [0x88, 0xC6, 0xFA];
/// let mut bitmap = [0u8; 1];
/// assert_eq!(horizontal::scan(&page, 3, 8, Comparison::less(9), &mut bitmap), Ok(8));
/// assert_eq!(bitmap, [0xFF]);
///
/// let refused = horizontal::scan(&page[..2], 3, 8, Comparison::less(3), &mut bitmap);
/// assert_eq!(refused, Err(Refusal::InputEndsTooEarly));
/// assert_eq!(bitmap, [0xFF]);
/// ```
pub fn scan(
    page: &[u8],
    width: u32,
    n: usize,
    comparison: Comparison,
    bitmap: &mut [u8],
) -> Result<usize, Refusal> {
    HORIZONTAL.scan(page, width, n, comparison, bitmap)
}

/// Compares the `n` entries of `page`, and gives the selection as a new [`Bitmap`].
///
/// # Errors
///
/// Those of [`scan`], but for [`OutputTooShort`](Refusal::OutputTooShort).
///
/// # Examples
///
/// ```
/// use cahermisk::{horizontal, Comparison};
///
/// let selection = horizontal::scan_to_bitmap(&[0x88, 0xC6, 0xFA], 3, 8, Comparison::between(2, 4))?;
/// assert_eq!(selection.as_bytes(), [0b0001_1100]);
/// assert_eq!(selection.count(), 3);
/// # Ok::<(), cahermisk::Refusal>(())
/// ```
pub fn scan_to_bitmap(
    page: &[u8],
    width: u32,
    n: usize,
    comparison: Comparison,
) -> Result<Bitmap, Refusal> {
    HORIZONTAL.scan_to_bitmap(page, width, n, comparison)
}

/// Writes the `n` entries of `page` to the first `n` places of `entries`; the others are kept.
/// Gives `n`.
///
#[doc = include_str!("refusal/reading_bare.md")]
///
/// # Examples
///
/// ```
/// use cahermisk::horizontal;
///
/// let mut entries = [99; 9];
/// assert_eq!(horizontal::unpack(&[0x88, 0xC6, 0xFA], 3, 8, &mut entries), Ok(8));
/// assert_eq!(entries, [0, 1, 2, 3, 4, 5, 6, 7, 99]);
/// ```
pub fn unpack(page: &[u8], width: u32, n: usize, entries: &mut [u32]) -> Result<usize, Refusal> {
    HORIZONTAL.unpack(page, width, n, entries)
}

/// Gives the `n` entries of `page` as a new `Vec`.
///
/// # Errors
///
/// Those of [`unpack`], but for [`OutputTooShort`](Refusal::OutputTooShort).
///
/// # Examples
///
/// ```
/// use cahermisk::horizontal;
///
/// let entries = horizontal::unpack_to_vec(&[0x88, 0xC6, 0xFA], 3, 8)?;
/// assert_eq!(entries, [0, 1, 2, 3, 4, 5, 6, 7]);
/// # Ok::<(), cahermisk::Refusal>(())
/// ```
pub fn unpack_to_vec(page: &[u8], width: u32, n: usize) -> Result<Vec<u32>, Refusal> {
    HORIZONTAL.unpack_to_vec(page, width, n)
}

/// Packs all of `entries` to the front of `page`; the bytes after it are kept. Gives the number of
/// bytes written, which is [`page_bytes`].
///
#[doc = include_str!("refusal/packing.md")]
///
/// # Examples
///
/// ```
/// use cahermisk::{horizontal, Refusal};
///
/// let mut page = [0; 3];
/// assert_eq!(horizontal::pack(&[0, 1, 2, 3, 4, 5, 6, 7], 3, &mut page), Ok(3));
/// assert_eq!(page, [0x88, 0xC6, 0xFA]);
/// assert_eq!(horizontal::pack(&[8], 3, &mut page), Err(Refusal::ValueTooLarge));
/// ```
pub fn pack(entries: &[u32], width: u32, page: &mut [u8]) -> Result<usize, Refusal> {
    HORIZONTAL.pack(entries, width, page)
}

/// Packs all of `entries` to a new page.
///
/// # Errors
///
/// Those of [`pack`], but for [`OutputTooShort`](Refusal::OutputTooShort).
///
/// # Examples
///
/// ```
/// use cahermisk::horizontal;
///
/// let page = horizontal::pack_to_vec(&[0, 1, 2, 3, 4, 5, 6, 7], 3)?;
/// assert_eq!(page, [0x88, 0xC6, 0xFA]);
/// # Ok::<(), cahermisk::Refusal>(())
/// ```
pub fn pack_to_vec(entries: &[u32], width: u32) -> Result<Vec<u8>, Refusal> {
    HORIZONTAL.pack_to_vec(entries, width, page_bytes)
}
