//! The C functions of spans.

use super::Answer;
use crate::Refusal;

extern "C" {
    fn cahermisk_spans_from_bitmap(
        bitmap: *const u8,
        bitmap_len: usize,
        n: usize,
        spans: *mut u32,
        spans_len: usize,
    ) -> Answer;

    fn cahermisk_spans_to_bitmap(
        spans: *const u32,
        spans_len: usize,
        n: usize,
        bitmap: *mut u8,
        bitmap_len: usize,
    ) -> Answer;
}

pub(crate) fn from_bitmap(bitmap: &[u8], n: usize, spans: &mut [u32]) -> Result<usize, Refusal> {
    // SAFETY: both slices are valid for their lengths, aligned and not null, and the borrow of
    // `spans` is exclusive, so it overlaps nothing. Nothing is asked of the other argument.
    let answer = unsafe {
        cahermisk_spans_from_bitmap(
            bitmap.as_ptr(),
            bitmap.len(),
            n,
            spans.as_mut_ptr(),
            spans.len(),
        )
    };
    answer.result()
}

pub(crate) fn to_bitmap(spans: &[u32], n: usize, bitmap: &mut [u8]) -> Result<usize, Refusal> {
    // SAFETY: as in `from_bitmap`, of `bitmap`, which is lent for writing here.
    let answer = unsafe {
        cahermisk_spans_to_bitmap(
            spans.as_ptr(),
            spans.len(),
            n,
            bitmap.as_mut_ptr(),
            bitmap.len(),
        )
    };
    answer.result()
}
