//! Run streams, the RLE/bit-packing hybrid: entries of 0 to 32 bits, in runs laid end to end.
//!
//! Each run starts with a header h, a variable-length number of at most five bytes and 32 bits. If h is
//! even, the run is h / 2 equal entries, and their value follows in ceil(width / 8) bytes, low byte
//! first. If h is odd, it is (h − 1) / 2 groups of 8 entries, and each group follows as `width` bytes,
//! packed as a [horizontal](crate::horizontal) page. The last packed run may pass `n` by at most 7
//! entries, which may be anything.
//!
//! A whole stream is read by [`scan`] and [`unpack`], run by run by [`Runs`] and [`next`], and written
//! by [`pack`].

mod one;

pub use one::{next, Run, Runs};

use alloc::vec::Vec;

use crate::ffi::RUNS;
use crate::layout::within_limits;
use crate::{Bitmap, Comparison, Refusal};

/// Bytes that are enough for the stream of any `n` entries, a header and `width` bytes for each eight:
/// ceil(n / 8) × (width + 1); 0 past the limits.
///
/// ```
/// use cahermisk::runs;
///
/// let mut page = [0; runs::page_bytes(3, 9)];
/// assert_eq!(page.len(), 8);
/// assert_eq!(runs::pack(&[0, 1, 2, 3, 4, 5, 6, 7, 0], 3, &mut page), Ok(7));
/// assert_eq!(runs::page_bytes(33, 9), 0);
/// ```
#[must_use]
pub const fn page_bytes(width: u32, n: usize) -> usize {
    if !within_limits(width, n) {
        return 0;
    }
    n.div_ceil(8) * (width as usize + 1)
}

/// Compares the `n` entries of `page` and writes the selection to the first ceil(n / 8) bytes of
/// `bitmap`; later bytes are kept. Gives the number of selected entries.
///
#[doc = include_str!("refusal/reading_runs.md")]
///
/// # Examples
///
/// ```
/// use cahermisk::{runs, Comparison, Refusal};
///
/// // Three times 4, and then one group: 0 to 7.
/// let page = [0x06, 0x04, 0x03, 0x88, 0xC6, 0xFA];
/// let mut bitmap = [0; 2];
/// assert_eq!(runs::scan(&page, 3, 11, Comparison::greater(3), &mut bitmap), Ok(7));
/// assert_eq!(bitmap, [0b1000_0111, 0b111]);
///
/// // The first run alone covers 3 entries, and is too long for 2.
/// let left_over = runs::scan(&page, 3, 3, Comparison::less(3), &mut bitmap);
/// assert_eq!(left_over, Err(Refusal::InputLeftOver));
/// let too_far = runs::scan(&page, 3, 2, Comparison::less(3), &mut bitmap);
/// assert_eq!(too_far, Err(Refusal::RunPastN));
/// assert_eq!(bitmap, [0b1000_0111, 0b111]);
/// ```
pub fn scan(
    page: &[u8],
    width: u32,
    n: usize,
    comparison: Comparison,
    bitmap: &mut [u8],
) -> Result<usize, Refusal> {
    RUNS.scan(page, width, n, comparison, bitmap)
}

/// Compares the `n` entries of `page`, and gives the selection as a new [`Bitmap`].
///
/// # Errors
///
/// Those of [`scan`], but for [`OutputTooShort`](Refusal::OutputTooShort).
///
/// # Examples
///
/// ```
/// use cahermisk::{runs, Comparison};
///
/// // Ten fives.
/// let selection = runs::scan_to_bitmap(&[0x14, 0x05], 3, 10, Comparison::equal(5))?;
/// assert_eq!(selection.as_bytes(), [0xFF, 0b11]);
/// assert_eq!(selection.count(), 10);
/// # Ok::<(), cahermisk::Refusal>(())
/// ```
pub fn scan_to_bitmap(
    page: &[u8],
    width: u32,
    n: usize,
    comparison: Comparison,
) -> Result<Bitmap, Refusal> {
    RUNS.scan_to_bitmap(page, width, n, comparison)
}

/// Writes the `n` entries of `page` to the first `n` places of `entries`; the others are kept.
/// Gives `n`.
///
#[doc = include_str!("refusal/reading_runs.md")]
///
/// # Examples
///
/// ```
/// use cahermisk::runs;
///
/// let mut entries = [99; 6];
/// let page = [0x06, 0x04, 0x03, 0x88, 0xC6, 0xFA];
/// assert_eq!(runs::unpack(&page, 3, 5, &mut entries), Ok(5));
/// assert_eq!(entries, [4, 4, 4, 0, 1, 99]);
/// ```
pub fn unpack(page: &[u8], width: u32, n: usize, entries: &mut [u32]) -> Result<usize, Refusal> {
    RUNS.unpack(page, width, n, entries)
}

/// Gives the `n` entries of `page` as a new `Vec`.
///
/// # Errors
///
/// Those of [`unpack`], but for [`OutputTooShort`](Refusal::OutputTooShort).
///
/// # Examples
///
/// ```
/// use cahermisk::runs;
///
/// // A header may have more bytes than it needs.
/// let entries = runs::unpack_to_vec(&[0x94, 0x00, 0x05], 3, 10)?;
/// assert_eq!(entries, [5; 10]);
/// # Ok::<(), cahermisk::Refusal>(())
/// ```
pub fn unpack_to_vec(page: &[u8], width: u32, n: usize) -> Result<Vec<u32>, Refusal> {
    RUNS.unpack_to_vec(page, width, n)
}

/// Packs all of `entries` to the front of `page`; the bytes after their stream are kept. Gives the
/// number of bytes written, which depends on the entries: [`page_bytes`] are enough.
///
/// Eight or more equal entries, from where a run may begin, are one repeated run. Other entries go by
/// eight into packed runs of at most 63 groups; the last group is filled with 0.
///
#[doc = include_str!("refusal/packing.md")]
///
/// # Examples
///
/// ```
/// use cahermisk::{runs, Refusal};
///
/// let mut page = [0; 3];
/// assert_eq!(runs::pack(&[5; 10], 3, &mut page), Ok(2));
/// assert_eq!(page, [0x14, 0x05, 0x00]);
/// assert_eq!(runs::pack(&[0, 1, 2], 3, &mut page), Err(Refusal::OutputTooShort));
/// ```
pub fn pack(entries: &[u32], width: u32, page: &mut [u8]) -> Result<usize, Refusal> {
    RUNS.pack(entries, width, page)
}

/// Packs all of `entries` to a new page.
///
/// # Errors
///
/// Those of [`pack`], but for [`OutputTooShort`](Refusal::OutputTooShort).
///
/// # Examples
///
/// ```
/// use cahermisk::runs;
///
/// let page = runs::pack_to_vec(&[0, 1, 2, 3, 4, 5, 6, 7], 3)?;
/// assert_eq!(page, [0x03, 0x88, 0xC6, 0xFA]);
/// # Ok::<(), cahermisk::Refusal>(())
/// ```
pub fn pack_to_vec(entries: &[u32], width: u32) -> Result<Vec<u8>, Refusal> {
    RUNS.pack_to_vec(entries, width, page_bytes)
}
