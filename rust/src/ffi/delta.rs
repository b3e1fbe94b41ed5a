//! The C functions of delta pages.

use super::Answer;
use crate::{Comparison, Refusal};

extern "C" {
    fn cahermisk_delta_scan(
        page: *const u8,
        page_len: usize,
        n: usize,
        op: u32,
        a: i64,
        b: i64,
        bitmap: *mut u8,
        bitmap_len: usize,
    ) -> Answer;

    fn cahermisk_delta_unpack(
        page: *const u8,
        page_len: usize,
        n: usize,
        entries: *mut i32,
        entries_len: usize,
    ) -> Answer;

    fn cahermisk_delta_pack(
        entries: *const i32,
        entries_len: usize,
        page: *mut u8,
        page_len: usize,
    ) -> Answer;
}

pub(crate) fn scan(
    page: &[u8],
    n: usize,
    comparison: Comparison,
    bitmap: &mut [u8],
) -> Result<usize, Refusal> {
    // SAFETY: both slices are valid for their lengths, aligned and not null, and the borrow of
    // `bitmap` is exclusive, so it overlaps nothing. Nothing is asked of the other arguments.
    let answer = unsafe {
        cahermisk_delta_scan(
            page.as_ptr(),
            page.len(),
            n,
            comparison.operator.number(),
            comparison.a,
            comparison.b,
            bitmap.as_mut_ptr(),
            bitmap.len(),
        )
    };
    answer.result()
}

pub(crate) fn unpack(page: &[u8], n: usize, entries: &mut [i32]) -> Result<usize, Refusal> {
    // SAFETY: as in `scan`, of `entries`.
    let answer = unsafe {
        cahermisk_delta_unpack(
            page.as_ptr(),
            page.len(),
            n,
            entries.as_mut_ptr(),
            entries.len(),
        )
    };
    answer.result()
}

pub(crate) fn pack(entries: &[i32], page: &mut [u8]) -> Result<usize, Refusal> {
    // SAFETY: as in `scan`, of `page`, which is lent for writing here.
    let answer = unsafe {
        cahermisk_delta_pack(
            entries.as_ptr(),
            entries.len(),
            page.as_mut_ptr(),
            page.len(),
        )
    };
    answer.result()
}
