//! Places of length 0, lent as null: every function answers as where the pointer is only aligned.

use std::fmt::Debug;
use std::ptr::{null, null_mut, NonNull};

use crate::raw::*;
use crate::support::lent::Filled;

/// How a place of length 0 is lent.
#[derive(Clone, Copy)]
enum Empty {
    Null,
    Aligned,
}

impl Empty {
    fn read<T>(self, held: &[T]) -> *const T {
        match (held.is_empty(), self) {
            (true, Empty::Null) => null(),
            (true, Empty::Aligned) => NonNull::dangling().as_ptr(),
            (false, _) => held.as_ptr(),
        }
    }

    fn written<T>(self, held: &mut [T]) -> *mut T {
        match (held.is_empty(), self) {
            (true, Empty::Null) => null_mut(),
            (true, Empty::Aligned) => NonNull::dangling().as_ptr(),
            (false, _) => held.as_mut_ptr(),
        }
    }
}

/// The calls of one function, and how many of them were accepted and refused.
#[derive(Default)]
struct Tally {
    accepted: usize,
    refused: usize,
}

impl Tally {
    /// Makes a call twice; it gives the code, with whatever else came of it.
    fn same<T: Debug + PartialEq>(&mut self, call: impl Fn(Empty) -> (u32, T)) {
        let (with_null, aligned) = (call(Empty::Null), call(Empty::Aligned));
        assert_eq!(with_null, aligned, "with null (left) and without (right)");
        match with_null.0 {
            0 => self.accepted += 1,
            _ => self.refused += 1,
        }
    }

    /// As `same`, of a call that is lent a place of some length to write.
    fn same_left<T: Filled + Debug>(
        &mut self,
        len: usize,
        call: impl Fn(Empty, &mut [T]) -> Answer,
    ) {
        self.same(|empty| {
            let mut place = vec![T::filled(0xA5); len];
            let answer = call(empty, &mut place);
            (answer.code, (answer.number, place))
        });
    }

    /// Both ends were seen.
    fn finish(self) {
        assert!(self.accepted > 0 && self.refused > 0);
    }
}

const WIDTHS: [u32; 4] = [0, 3, 32, 33];
const COUNTS: [usize; 4] = [0, 1, 8, 16_385];
const OPERATORS: [u32; 2] = [2, 8];
const ROOMS: [usize; 3] = [0, 1, 8];
const LISTS: [&[u32]; 3] = [&[], &[0], &[1, 2, 9]];

/// Each of some values with each of some others.
fn pairs<A: Copy, B: Copy>(firsts: &[A], seconds: &[B]) -> Vec<(A, B)> {
    let with = |&first| seconds.iter().map(move |&second| (first, second));
    firsts.iter().flat_map(with).collect()
}

/// The three functions of a layout of unsigned entries, over pages of which one is empty.
fn unsigned<U: Filled + Debug>(scan: Scan<U>, unpack: Unpack<U>, pack: Pack<U>, pages: &[&[U]]) {
    let [mut scans, mut unpacks, mut packs] = [(); 3].map(|()| Tally::default());
    for (width, n) in pairs(&WIDTHS, &COUNTS) {
        for page in pages {
            let len = page.len();
            for (op, room) in pairs(&OPERATORS, &ROOMS) {
                scans.same_left(room, |empty, bitmap| {
                    let (page, to) = (empty.read(page), empty.written(bitmap));
                    // SAFETY: each place is valid for its length; with length 0 it may be null.
                    unsafe { scan(page, len, width, n, op, 3, 0, to, bitmap.len()) }
                });
            }
            for room in ROOMS {
                unpacks.same_left(room, |empty, places| {
                    let (page, to) = (empty.read(page), empty.written(places));
                    // SAFETY: as above.
                    unsafe { unpack(page, len, width, n, to, places.len()) }
                });
            }
        }
        for (entries, room) in pairs(&LISTS, &ROOMS) {
            packs.same_left(room, |empty, page| {
                let (entries_at, to) = (empty.read(entries), empty.written(page));
                // SAFETY: as above.
                unsafe { pack(entries_at, entries.len(), width, to, page.len()) }
            });
        }
    }
    for tally in [scans, unpacks, packs] {
        tally.finish();
    }
}

#[test]
fn horizontal_pages() {
    unsigned(
        cahermisk_horizontal_scan,
        cahermisk_horizontal_unpack,
        cahermisk_horizontal_pack,
        &[&[], &[0x05], &[0x88, 0xC6, 0xFA]],
    );
}

#[test]
fn bit_planes() {
    unsigned(
        cahermisk_vertical_scan,
        cahermisk_vertical_unpack,
        cahermisk_vertical_pack,
        &[&[], &[1, 0, 1]],
    );
}

#[test]
fn run_streams() {
    let pages: [&[u8]; 3] = [&[], &[0x02, 0x01], &[0x03, 0x88, 0xC6, 0xFA]];
    unsigned(
        cahermisk_runs_scan,
        cahermisk_runs_unpack,
        cahermisk_runs_pack,
        &pages,
    );
    let mut tally = Tally::default();
    for (width, n) in pairs(&WIDTHS, &COUNTS) {
        for page in pages {
            for (at, covered) in [(0, 0), (0, n), (1, 0)] {
                tally.same(|empty| {
                    let page_at = empty.read(page);
                    // SAFETY: the page is valid for its length; with length 0 it may be null.
                    let run =
                        unsafe { cahermisk_runs_next(page_at, page.len(), width, n, at, covered) };
                    (run.code, run)
                });
            }
        }
    }
    tally.finish();
}

#[test]
fn delta_pages() {
    let [mut scans, mut unpacks, mut packs] = [(); 3].map(|()| Tally::default());
    // Of no entry, and of one.
    let pages: [&[u8]; 3] = [&[], &[0x80, 0x01, 0x04, 0, 0], &[0x80, 0x01, 0x04, 1, 6]];
    for (page, n) in pairs(&pages, &COUNTS) {
        for (op, room) in pairs(&OPERATORS, &ROOMS) {
            scans.same_left(room, |empty, bitmap| {
                let (page_at, to) = (empty.read(page), empty.written(bitmap));
                // SAFETY: each place is valid for its length; with length 0 it may be null.
                unsafe { cahermisk_delta_scan(page_at, page.len(), n, op, 3, 0, to, bitmap.len()) }
            });
            unpacks.same_left(room, |empty, places| {
                let (page_at, to) = (empty.read(page), empty.written(places));
                // SAFETY: as above.
                unsafe { cahermisk_delta_unpack(page_at, page.len(), n, to, places.len()) }
            });
        }
    }
    let lists: [&[i32]; 2] = [&[], &[3]];
    for (entries, room) in pairs(&lists, &ROOMS) {
        packs.same_left(room, |empty, page| {
            let (entries_at, to) = (empty.read(entries), empty.written(page));
            // SAFETY: as above.
            unsafe { cahermisk_delta_pack(entries_at, entries.len(), to, page.len()) }
        });
    }
    for tally in [scans, unpacks, packs] {
        tally.finish();
    }
}

#[test]
fn spans() {
    let [mut lists, mut bitmaps] = [(); 2].map(|()| Tally::default());
    let held: [&[u8]; 2] = [&[], &[0x5A]];
    for ((bitmap, n), room) in pairs(&pairs(&held, &COUNTS), &ROOMS) {
        lists.same_left(room, |empty, list| {
            let (from, to) = (empty.read(bitmap), empty.written(list));
            // SAFETY: each place is valid for its length; with length 0 it may be null.
            unsafe { cahermisk_spans_from_bitmap(from, bitmap.len(), n, to, list.len()) }
        });
    }
    let held: [&[u32]; 4] = [&[], &[0], &[0, 0], &[2, 1]];
    for ((list, n), room) in pairs(&pairs(&held, &COUNTS), &ROOMS) {
        bitmaps.same_left(room, |empty, bitmap| {
            let (from, to) = (empty.read(list), empty.written(bitmap));
            // SAFETY: as above.
            unsafe { cahermisk_spans_to_bitmap(from, list.len(), n, to, bitmap.len()) }
        });
    }
    for tally in [lists, bitmaps] {
        tally.finish();
    }
}

#[test]
fn dictionary_columns() {
    let [mut scans, mut unpacks] = [(); 2].map(|()| Tally::default());
    let dicts: [&[u8]; 2] = [&[], &[7, 0, 0, 0]];
    // No page, one of no entry, and one of eight.
    let pages: [&[u8]; 3] = [&[], &[0x00], &[0x00, 0x10]];
    for ((dict, page), n) in pairs(&pairs(&dicts, &pages), &COUNTS) {
        let (dict_len, page_len) = (dict.len(), page.len());
        for (op, room) in pairs(&OPERATORS, &ROOMS) {
            scans.same_left(room, |empty, bitmap| {
                let (dict, page, to) = (empty.read(dict), empty.read(page), empty.written(bitmap));
                let len = bitmap.len();
                // SAFETY: each place is valid for its length; with length 0 it may be null.
                unsafe {
                    cahermisk_dictionary_scan(dict, dict_len, page, page_len, n, op, 9, 0, to, len)
                }
            });
            unpacks.same_left(room, |empty, places| {
                let (dict, page, to) = (empty.read(dict), empty.read(page), empty.written(places));
                let len = places.len();
                // SAFETY: as above.
                unsafe { cahermisk_dictionary_unpack(dict, dict_len, page, page_len, n, to, len) }
            });
        }
    }
    for tally in [scans, unpacks] {
        tally.finish();
    }
}
