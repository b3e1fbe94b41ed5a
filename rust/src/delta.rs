//! Delta pages: signed 32-bit entries, kept as deltas from one to the next.
//!
//! A page starts with its block size, the miniblocks per block, the count of its entries and the first
//! value. Then come blocks of deltas: a smallest delta, one width byte for each miniblock, and the
//! miniblocks' bodies, each packed as a [horizontal](crate::horizontal) page. Each entry is the one
//! before plus its block's smallest delta plus its packed number, wrapping in 32 bits.
//!
//! [`scan`] and [`unpack`] read pages of any writer: block sizes from 128 to 16,384, miniblocks of any
//! multiple of 32, any number as the width byte of a miniblock that holds no entry. [`pack`] writes
//! blocks of 128 in 4 miniblocks.

use alloc::vec::Vec;

use crate::ffi::delta as ffi;
use crate::layout::{to_bitmap, to_vec};
use crate::{Bitmap, Comparison, Refusal, MAX_ENTRIES};

/// Bytes that are enough for the page of any `n` entries: 11 for the header, and for each block of 128
/// deltas 5 and 4 and four bodies of 128; 0 past the limit.
///
/// ```
/// use cahermisk::delta;
///
/// let mut page = [0; delta::page_bytes(2)];
/// assert_eq!(page.len(), 11 + 521);
/// assert_eq!(delta::pack(&[i32::MAX, i32::MIN], &mut page), Ok(14));
/// assert_eq!(delta::page_bytes(16_385), 0);
/// ```
#[must_use]
pub const fn page_bytes(n: usize) -> usize {
    if n > MAX_ENTRIES {
        return 0;
    }
    11 + n.saturating_sub(1).div_ceil(128) * 521
}

/// Compares the `n` entries of `page` and writes the selection to the first ceil(n / 8) bytes of
/// `bitmap`; later bytes are kept. Gives the number of selected entries.
///
#[doc = include_str!("refusal/reading_delta.md")]
///
/// # Examples
///
/// ```
/// use cahermisk::{delta, Comparison, Refusal};
///
/// let page = delta::pack_to_vec(&[7, 5, 3, 1, 2, 3, 4, 5])?;
/// let mut bitmap = [0; 1];
/// assert_eq!(delta::scan(&page, 8, Comparison::between(2, 4), &mut bitmap), Ok(4));
/// assert_eq!(bitmap, [0b0111_0100]);
///
/// // The page says that it has 8 entries.
/// let refused = delta::scan(&page, 7, Comparison::less(3), &mut bitmap);
/// assert_eq!(refused, Err(Refusal::DeltaCountNotN));
/// assert_eq!(bitmap, [0b0111_0100]);
/// # Ok::<(), Refusal>(())
/// ```
pub fn scan(
    page: &[u8],
    n: usize,
    comparison: Comparison,
    bitmap: &mut [u8],
) -> Result<usize, Refusal> {
    ffi::scan(page, n, comparison, bitmap)
}

/// Compares the `n` entries of `page`, and gives the selection as a new [`Bitmap`].
///
/// # Errors
///
/// Those of [`scan`], but for [`OutputTooShort`](Refusal::OutputTooShort).
///
/// # Examples
///
/// ```
/// use cahermisk::{delta, Comparison};
///
/// let page = delta::pack_to_vec(&[i32::MAX, i32::MIN])?;
/// let selection = delta::scan_to_bitmap(&page, 2, Comparison::less(0))?;
/// assert_eq!(selection.selected().collect::<Vec<_>>(), [1]);
/// # Ok::<(), cahermisk::Refusal>(())
/// ```
pub fn scan_to_bitmap(page: &[u8], n: usize, comparison: Comparison) -> Result<Bitmap, Refusal> {
    to_bitmap(n, |bitmap| scan(page, n, comparison, bitmap))
}

/// Writes the `n` entries of `page` to the first `n` places of `entries`; the others are kept.
/// Gives `n`.
///
#[doc = include_str!("refusal/reading_delta.md")]
///
/// # Examples
///
/// ```
/// use cahermisk::delta;
///
/// // Two entries: the first is 2147483647, and the one delta is 1.
/// let page = [0x80, 0x01, 0x04, 0x02, 0xFE, 0xFF, 0xFF, 0xFF, 0x0F, 0x02, 0, 0, 0, 0];
/// let mut entries = [99; 3];
/// assert_eq!(delta::unpack(&page, 2, &mut entries), Ok(2));
/// assert_eq!(entries, [2147483647, -2147483648, 99]);
/// ```
pub fn unpack(page: &[u8], n: usize, entries: &mut [i32]) -> Result<usize, Refusal> {
    ffi::unpack(page, n, entries)
}

/// Gives the `n` entries of `page` as a new `Vec`.
///
/// # Errors
///
/// Those of [`unpack`], but for [`OutputTooShort`](Refusal::OutputTooShort).
///
/// # Examples
///
/// ```
/// use cahermisk::{delta, Refusal};
///
/// // One entry is the first value alone.
/// assert_eq!(delta::unpack_to_vec(&[0x80, 0x01, 0x04, 0x01, 0x09], 1), Ok(vec![-5]));
/// // A block size of 8 is none.
/// let refused = delta::unpack_to_vec(&[0x08, 0x01, 0x01, 0x09], 1);
/// assert_eq!(refused, Err(Refusal::DeltaShape));
/// ```
pub fn unpack_to_vec(page: &[u8], n: usize) -> Result<Vec<i32>, Refusal> {
    to_vec(n.min(MAX_ENTRIES), |entries| unpack(page, n, entries))
}

/// Packs all of `entries` to the front of `page`; the bytes after their page are kept. Gives the
/// number of bytes written, which depends on the entries: [`page_bytes`] are enough.
///
/// Blocks are of 128 deltas in 4 miniblocks; the smallest delta is the least, widths are the least, and
/// bodies are filled with 0.
///
#[doc = include_str!("refusal/packing_delta.md")]
///
/// # Examples
///
/// ```
/// use cahermisk::{delta, Refusal};
///
/// let mut page = [0xA5; 15];
/// assert_eq!(delta::pack(&[2147483647, -2147483648], &mut page), Ok(14));
/// let written = [0x80, 0x01, 0x04, 0x02, 0xFE, 0xFF, 0xFF, 0xFF, 0x0F, 0x02, 0, 0, 0, 0, 0xA5];
/// assert_eq!(page, written);
/// assert_eq!(delta::pack(&[1, 2, 5], &mut page), Err(Refusal::OutputTooShort));
/// assert_eq!(page, written);
/// ```
pub fn pack(entries: &[i32], page: &mut [u8]) -> Result<usize, Refusal> {
    ffi::pack(entries, page)
}

/// Packs all of `entries` to a new page.
///
/// # Errors
///
/// Those of [`pack`], but for [`OutputTooShort`](Refusal::OutputTooShort).
///
/// # Examples
///
/// ```
/// use cahermisk::delta;
///
/// // No entries are a header alone.
/// assert_eq!(delta::pack_to_vec(&[])?, [0x80, 0x01, 0x04, 0x00, 0x00]);
/// // Equal steps: the smallest delta is 1, and what is packed above it has no bits.
/// let page = delta::pack_to_vec(&[1, 2, 3, 4, 5])?;
/// assert_eq!(page, [0x80, 0x01, 0x04, 0x05, 0x02, 0x02, 0, 0, 0, 0]);
/// # Ok::<(), cahermisk::Refusal>(())
/// ```
pub fn pack_to_vec(entries: &[i32]) -> Result<Vec<u8>, Refusal> {
    to_vec(page_bytes(entries.len()), |page| pack(entries, page))
}
