//! The C functions of dictionary columns.

use super::Answer;
use crate::{Comparison, Refusal};

extern "C" {
    fn cahermisk_dictionary_scan(
        dict: *const u8,
        dict_len: usize,
        page: *const u8,
        page_len: usize,
        n: usize,
        op: u32,
        a: i64,
        b: i64,
        bitmap: *mut u8,
        bitmap_len: usize,
    ) -> Answer;

    fn cahermisk_dictionary_unpack(
        dict: *const u8,
        dict_len: usize,
        page: *const u8,
        page_len: usize,
        n: usize,
        entries: *mut i32,
        entries_len: usize,
    ) -> Answer;
}

pub(crate) fn scan(
    dictionary: &[u8],
    page: &[u8],
    n: usize,
    comparison: Comparison,
    bitmap: &mut [u8],
) -> Result<usize, Refusal> {
    // SAFETY: all slices are valid for their lengths, aligned and not null, and the borrow of
    // `bitmap` is exclusive, so it overlaps nothing. Nothing is asked of the other arguments.
    let answer = unsafe {
        cahermisk_dictionary_scan(
            dictionary.as_ptr(),
            dictionary.len(),
            page.as_ptr(),
            page.len(),
            n,
            comparison.operator.number(),
            comparison.a,
            comparison.b,
            bitmap.as_mut_ptr(),
            bitmap.len(),
        )
    };
    answer.result()
}

pub(crate) fn unpack(
    dictionary: &[u8],
    page: &[u8],
    n: usize,
    entries: &mut [i32],
) -> Result<usize, Refusal> {
    // SAFETY: as in `scan`, of `entries`.
    let answer = unsafe {
        cahermisk_dictionary_unpack(
            dictionary.as_ptr(),
            dictionary.len(),
            page.as_ptr(),
            page.len(),
            n,
            entries.as_mut_ptr(),
            entries.len(),
        )
    };
    answer.result()
}
