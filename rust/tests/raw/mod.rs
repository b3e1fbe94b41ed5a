//! The C functions as a C caller sees them, without the package's wrappers.

use cahermisk as _; // links the library

#[repr(C)]
#[derive(Clone, Copy, Debug, PartialEq)]
pub struct Answer {
    pub code: u32,
    pub number: u32,
}

/// One run.
#[repr(C)]
#[derive(Clone, Copy, Debug, Default, PartialEq)]
pub struct RunAnswer {
    pub code: u32,
    pub kind: u32,
    pub length: usize,
    pub value: u32,
    pub next: usize,
    pub body_at: usize,
    pub body_len: usize,
}

/// The functions of a layout whose pages are lists of `U`.
pub type Scan<U> =
    unsafe extern "C" fn(*const U, usize, u32, usize, u32, i64, i64, *mut u8, usize) -> Answer;
pub type Unpack<U> = unsafe extern "C" fn(*const U, usize, u32, usize, *mut u32, usize) -> Answer;
pub type Pack<U> = unsafe extern "C" fn(*const u32, usize, u32, *mut U, usize) -> Answer;

/// Declares the C functions of a layout whose pages are lists of a type.
macro_rules! functions_of_a_layout {
    ($scan:ident, $unpack:ident, $pack:ident: $unit:ty) => {
        extern "C" {
            pub fn $scan(
                page: *const $unit,
                page_len: usize,
                width: u32,
                n: usize,
                op: u32,
                a: i64,
                b: i64,
                bitmap: *mut u8,
                bitmap_len: usize,
            ) -> Answer;

            pub fn $unpack(
                page: *const $unit,
                page_len: usize,
                width: u32,
                n: usize,
                entries: *mut u32,
                entries_len: usize,
            ) -> Answer;

            pub fn $pack(
                entries: *const u32,
                entries_len: usize,
                width: u32,
                page: *mut $unit,
                page_len: usize,
            ) -> Answer;
        }
    };
}

functions_of_a_layout!(
    cahermisk_horizontal_scan,
    cahermisk_horizontal_unpack,
    cahermisk_horizontal_pack: u8
);
functions_of_a_layout!(
    cahermisk_vertical_scan,
    cahermisk_vertical_unpack,
    cahermisk_vertical_pack: u64
);
functions_of_a_layout!(
    cahermisk_runs_scan,
    cahermisk_runs_unpack,
    cahermisk_runs_pack: u8
);

extern "C" {
    pub fn cahermisk_runs_next(
        page: *const u8,
        page_len: usize,
        width: u32,
        n: usize,
        at: usize,
        covered: usize,
    ) -> RunAnswer;

    pub fn cahermisk_delta_scan(
        page: *const u8,
        page_len: usize,
        n: usize,
        op: u32,
        a: i64,
        b: i64,
        bitmap: *mut u8,
        bitmap_len: usize,
    ) -> Answer;

    pub fn cahermisk_delta_unpack(
        page: *const u8,
        page_len: usize,
        n: usize,
        entries: *mut i32,
        entries_len: usize,
    ) -> Answer;

    pub fn cahermisk_delta_pack(
        entries: *const i32,
        entries_len: usize,
        page: *mut u8,
        page_len: usize,
    ) -> Answer;

    pub fn cahermisk_dictionary_scan(
        dict: *const u8,
        dict_len: usize,
        page: *const u8,
        page_len: usize,
        n: usize,
        op: u32,
        a: i64,
        b: i64,
        bitmap: *mut u8,
        bitmap_len: usize,
    ) -> Answer;

    pub fn cahermisk_dictionary_unpack(
        dict: *const u8,
        dict_len: usize,
        page: *const u8,
        page_len: usize,
        n: usize,
        entries: *mut i32,
        entries_len: usize,
    ) -> Answer;
}

extern "C" {
    pub fn cahermisk_spans_from_bitmap(
        bitmap: *const u8,
        bitmap_len: usize,
        n: usize,
        spans: *mut u32,
        spans_len: usize,
    ) -> Answer;

    pub fn cahermisk_spans_to_bitmap(
        spans: *const u32,
        spans_len: usize,
        n: usize,
        bitmap: *mut u8,
        bitmap_len: usize,
    ) -> Answer;
}

// How many places to lend.
extern "C" {
    pub fn cahermisk_bitmap_bytes(n: usize) -> usize;
    pub fn cahermisk_horizontal_bytes(width: u32, n: usize) -> usize;
    pub fn cahermisk_vertical_words(width: u32, n: usize) -> usize;
    pub fn cahermisk_runs_bytes(width: u32, n: usize) -> usize;
    pub fn cahermisk_delta_bytes(n: usize) -> usize;
    pub fn cahermisk_spans_places(n: usize) -> usize;
}
