//! What the layouts share: their limits, and the calls that make room for their result. Past a limit no
//! more room is made than the limit allows, or none: the library refuses such a call before it looks at
//! the room.

use alloc::vec;
use alloc::vec::Vec;

use crate::ffi::Layout;
use crate::{Bitmap, Comparison, Refusal, MAX_ENTRIES, MAX_WIDTH};

/// Whether a page may have `n` entries of so many bits.
pub(crate) const fn within_limits(width: u32, n: usize) -> bool {
    width <= MAX_WIDTH && n <= MAX_ENTRIES
}

/// A scan of `n` entries to a new bitmap.
pub(crate) fn to_bitmap(
    n: usize,
    scan: impl FnOnce(&mut [u8]) -> Result<usize, Refusal>,
) -> Result<Bitmap, Refusal> {
    let mut bytes = vec![0; Bitmap::bytes_for(n)];
    let count = scan(&mut bytes)?;
    Ok(Bitmap::new(bytes, n, count))
}

/// A call that gives how many places it wrote, to a new list: `enough` places are enough.
pub(crate) fn to_vec<T: Clone + Default>(
    enough: usize,
    write: impl FnOnce(&mut [T]) -> Result<usize, Refusal>,
) -> Result<Vec<T>, Refusal> {
    let mut list = vec![T::default(); enough];
    let written = write(&mut list)?;
    list.truncate(written);
    Ok(list)
}

impl<T: Clone + Default> Layout<T> {
    pub(crate) fn scan_to_bitmap(
        &self,
        page: &[T],
        width: u32,
        n: usize,
        comparison: Comparison,
    ) -> Result<Bitmap, Refusal> {
        to_bitmap(n, |bitmap| self.scan(page, width, n, comparison, bitmap))
    }

    pub(crate) fn unpack_to_vec(
        &self,
        page: &[T],
        width: u32,
        n: usize,
    ) -> Result<Vec<u32>, Refusal> {
        to_vec(n.min(MAX_ENTRIES), |entries| {
            self.unpack(page, width, n, entries)
        })
    }

    /// `enough` gives a length that is enough for the page of a width and a number of entries.
    pub(crate) fn pack_to_vec(
        &self,
        entries: &[u32],
        width: u32,
        enough: fn(u32, usize) -> usize,
    ) -> Result<Vec<T>, Refusal> {
        to_vec(enough(width, entries.len()), |page| {
            self.pack(entries, width, page)
        })
    }
}
