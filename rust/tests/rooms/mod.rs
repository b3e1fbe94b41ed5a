//! How many places to lend, as the library's own functions tell it: those that the second reader counts.

use crate::raw::*;
use crate::reader::bare::Bare;
use crate::reader::horizontal::Horizontal;
use crate::reader::vertical::Vertical;

/// Counts within the limit and beyond it.
fn counts() -> impl Iterator<Item = usize> {
    let large = (1..=128).flat_map(|k| [128 * k - 1, 128 * k, 128 * k + 1]);
    let beyond = [1 << 32, (1 << 32) + 5, usize::MAX - 6, usize::MAX];
    (0..=300).chain(large).chain(beyond)
}

fn of_count(function: unsafe extern "C" fn(usize) -> usize, places: impl Fn(usize) -> usize) {
    for n in counts() {
        let want = if n > 16_384 { 0 } else { places(n) };
        // SAFETY: nothing is lent.
        assert_eq!(unsafe { function(n) }, want, "{n} entries");
    }
}

fn of_width(
    function: unsafe extern "C" fn(u32, usize) -> usize,
    places: impl Fn(u32, usize) -> usize,
) {
    for width in (0..=34).chain([259, u32::MAX]) {
        for n in counts() {
            let beyond = width > 32 || n > 16_384;
            let want = if beyond { 0 } else { places(width, n) };
            // SAFETY: nothing is lent.
            let given = unsafe { function(width, n) };
            assert_eq!(given, want, "{n} entries of {width} bits");
        }
    }
}

#[test]
fn bitmaps() {
    of_count(cahermisk_bitmap_bytes, |n| n.div_ceil(8));
}

#[test]
fn bare_pages() {
    of_width(cahermisk_horizontal_bytes, Horizontal::page_len);
    of_width(cahermisk_vertical_words, Vertical::page_len);
}

/// A byte of a header, and the group's bytes, for each eight entries.
#[test]
fn run_streams() {
    let bytes = |width: u32, n: usize| n.div_ceil(8) * (width as usize + 1);
    of_width(cahermisk_runs_bytes, bytes);
}

/// A pair for every other entry.
#[test]
fn spans() {
    of_count(cahermisk_spans_places, |n| 2 * n.div_ceil(2));
}

/// A header, and of each block the smallest delta, four widths and four bodies.
#[test]
fn delta_pages() {
    let block = 5 + 4 + 4 * 128;
    of_count(cahermisk_delta_bytes, |n| {
        11 + n.saturating_sub(1).div_ceil(128) * block
    });
}
