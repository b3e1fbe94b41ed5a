//! The C functions of the library. All unsafe code of the package stands here.
#![allow(unsafe_code)]

pub(crate) mod delta;
pub(crate) mod dictionary;
pub(crate) mod spans;

use crate::{Comparison, Refusal};

/// `cahermisk_answer` of the C header.
#[repr(C)]
#[derive(Clone, Copy)]
struct Answer {
    code: u32,
    number: u32,
}

impl Answer {
    /// The number of an accepted call, or why it was refused.
    fn result(self) -> Result<usize, Refusal> {
        judged(self.code, self.number as usize)
    }
}

/// What a call gives if its code is acceptance, or why it was refused.
fn judged<T>(code: u32, given: T) -> Result<T, Refusal> {
    match Refusal::from_code(code) {
        None => Ok(given),
        Some(refusal) => Err(refusal),
    }
}

/// `cahermisk_run` of the C header.
#[repr(C)]
pub(crate) struct RunAnswer {
    code: u32,
    kind: u32,
    pub(crate) length: usize,
    pub(crate) value: u32,
    pub(crate) next: usize,
    pub(crate) body_at: usize,
    pub(crate) body_len: usize,
}

impl RunAnswer {
    /// `CAHERMISK_PACKED` of the C header.
    const PACKED: u32 = 1;

    pub(crate) fn is_packed(&self) -> bool {
        self.kind == RunAnswer::PACKED
    }
}

/// Declares the C functions of a layout whose pages are lists of a type.
macro_rules! functions_of_a_layout {
    ($scan:ident, $unpack:ident, $pack:ident: $unit:ty) => {
        extern "C" {
            fn $scan(
                page: *const $unit,
                page_len: usize,
                width: u32,
                n: usize,
                op: u32,
                a: i64,
                b: i64,
                bitmap: *mut u8,
                bitmap_len: usize,
            ) -> Answer;

            fn $unpack(
                page: *const $unit,
                page_len: usize,
                width: u32,
                n: usize,
                entries: *mut u32,
                entries_len: usize,
            ) -> Answer;

            fn $pack(
                entries: *const u32,
                entries_len: usize,
                width: u32,
                page: *mut $unit,
                page_len: usize,
            ) -> Answer;
        }
    };
}

functions_of_a_layout!(
    cahermisk_horizontal_scan,
    cahermisk_horizontal_unpack,
    cahermisk_horizontal_pack: u8
);
functions_of_a_layout!(
    cahermisk_vertical_scan,
    cahermisk_vertical_unpack,
    cahermisk_vertical_pack: u64
);
functions_of_a_layout!(
    cahermisk_runs_scan,
    cahermisk_runs_unpack,
    cahermisk_runs_pack: u8
);

extern "C" {
    fn cahermisk_runs_next(
        page: *const u8,
        page_len: usize,
        width: u32,
        n: usize,
        at: usize,
        covered: usize,
    ) -> RunAnswer;
}

type Scan<T> =
    unsafe extern "C" fn(*const T, usize, u32, usize, u32, i64, i64, *mut u8, usize) -> Answer;
type Unpack<T> = unsafe extern "C" fn(*const T, usize, u32, usize, *mut u32, usize) -> Answer;
type Pack<T> = unsafe extern "C" fn(*const u32, usize, u32, *mut T, usize) -> Answer;

/// The C functions of a layout whose pages are lists of `T`. There are no others than those below,
/// and of the places lent to them they ask what the header says.
pub(crate) struct Layout<T> {
    scan: Scan<T>,
    unpack: Unpack<T>,
    pack: Pack<T>,
}

pub(crate) const HORIZONTAL: Layout<u8> = Layout {
    scan: cahermisk_horizontal_scan,
    unpack: cahermisk_horizontal_unpack,
    pack: cahermisk_horizontal_pack,
};

pub(crate) const VERTICAL: Layout<u64> = Layout {
    scan: cahermisk_vertical_scan,
    unpack: cahermisk_vertical_unpack,
    pack: cahermisk_vertical_pack,
};

pub(crate) const RUNS: Layout<u8> = Layout {
    scan: cahermisk_runs_scan,
    unpack: cahermisk_runs_unpack,
    pack: cahermisk_runs_pack,
};

impl<T> Layout<T> {
    pub(crate) fn scan(
        &self,
        page: &[T],
        width: u32,
        n: usize,
        comparison: Comparison,
        bitmap: &mut [u8],
    ) -> Result<usize, Refusal> {
        // SAFETY: both slices are valid for their lengths, aligned and not null, and the borrow of
        // `bitmap` is exclusive, so it overlaps nothing. Nothing is asked of the other arguments.
        let answer = unsafe {
            (self.scan)(
                page.as_ptr(),
                page.len(),
                width,
                n,
                comparison.operator.number(),
                comparison.a,
                comparison.b,
                bitmap.as_mut_ptr(),
                bitmap.len(),
            )
        };
        answer.result()
    }

    pub(crate) fn unpack(
        &self,
        page: &[T],
        width: u32,
        n: usize,
        entries: &mut [u32],
    ) -> Result<usize, Refusal> {
        // SAFETY: both slices are valid for their lengths, aligned and not null, and the borrow of
        // `entries` is exclusive, so it overlaps nothing. Nothing is asked of the other arguments.
        let answer = unsafe {
            (self.unpack)(
                page.as_ptr(),
                page.len(),
                width,
                n,
                entries.as_mut_ptr(),
                entries.len(),
            )
        };
        answer.result()
    }

    pub(crate) fn pack(
        &self,
        entries: &[u32],
        width: u32,
        page: &mut [T],
    ) -> Result<usize, Refusal> {
        // SAFETY: both slices are valid for their lengths, aligned and not null, and the borrow of
        // `page` is exclusive, so it overlaps nothing. Nothing is asked of the other arguments.
        let answer = unsafe {
            (self.pack)(
                entries.as_ptr(),
                entries.len(),
                width,
                page.as_mut_ptr(),
                page.len(),
            )
        };
        answer.result()
    }
}

/// The run at a place of a page.
pub(crate) fn next_run(
    page: &[u8],
    width: u32,
    n: usize,
    at: usize,
    covered: usize,
) -> Result<RunAnswer, Refusal> {
    // SAFETY: the slice is valid for its length and not null. Nothing is asked of the other arguments.
    let answer = unsafe { cahermisk_runs_next(page.as_ptr(), page.len(), width, n, at, covered) };
    judged(answer.code, answer)
}
