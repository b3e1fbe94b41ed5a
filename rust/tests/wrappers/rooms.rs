//! Room functions: what a writer takes of the room that they tell, and 0 past the limits. The header's
//! macros are held to them where C is compiled.

use cahermisk::{
    delta, horizontal, runs, spans, vertical, Bitmap, Refusal, MAX_ENTRIES, MAX_WIDTH,
};

use crate::layout::Pack;
use crate::random::Random;

/// Counts about each step of a room function, and the largest.
const COUNTS: [usize; 14] = [
    0,
    1,
    7,
    8,
    9,
    63,
    64,
    65,
    127,
    128,
    129,
    130,
    1000,
    MAX_ENTRIES,
];

/// Entries of a width without a pattern, so that no run of them is a repeated one but at the smallest
/// widths.
fn entries(width: u32, n: usize) -> Vec<u32> {
    let mut random = Random::new("rooms");
    let entry = |bits: u64| (bits & ((1 << width) - 1)) as u32;
    (0..n).map(|_| entry(random.bits())).collect()
}

/// The places that a writer takes of so many.
fn written<T: Clone + Default>(pack: Pack<T>, width: u32, n: usize, room: usize) -> usize {
    let mut page = vec![T::default(); room];
    let written = pack(&entries(width, n), width, &mut page);
    written.unwrap_or_else(|refusal| panic!("width {width}, {n} entries: {refusal}"))
}

#[test]
fn bare_pages_take_all_of_their_room() {
    for (width, n) in (0..=MAX_WIDTH).flat_map(|width| COUNTS.map(|n| (width, n))) {
        let bytes = horizontal::page_bytes(width, n);
        assert_eq!(written(horizontal::pack, width, n, bytes), bytes);
        let words = vertical::page_words(width, n);
        assert_eq!(written(vertical::pack, width, n, words), words);
    }
}

#[test]
fn streams_and_delta_pages_have_room_enough() {
    for n in COUNTS {
        for width in 0..=MAX_WIDTH {
            let room = runs::page_bytes(width, n);
            assert!(written(runs::pack, width, n, room) <= room);
        }
        let signed: Vec<i32> = entries(32, n).into_iter().map(|e| e as i32).collect();
        let mut page = vec![0; delta::page_bytes(n)];
        assert!(delta::pack(&signed, &mut page).is_ok_and(|written| written <= page.len()));
    }
}

/// A group of eight different entries is a header and its bytes, and so has no byte of room too many.
#[test]
fn one_group_takes_all_of_its_room() {
    let mut page = [0; runs::page_bytes(3, 8)];
    assert_eq!(runs::pack(&[0, 1, 2, 3, 4, 5, 6, 7], 3, &mut page), Ok(4));
    assert_eq!(page.len(), 4);
}

#[test]
fn a_bitmap_takes_all_of_its_room() {
    for n in COUNTS {
        let mut bitmap = vec![0; Bitmap::bytes_for(n)];
        let (page, all) = (vec![0; n.div_ceil(8)], cahermisk::Comparison::equal(0));
        assert_eq!(horizontal::scan(&page, 1, n, all, &mut bitmap), Ok(n));
        if bitmap.pop().is_some() {
            let short = Err(Refusal::OutputTooShort);
            assert_eq!(horizontal::scan(&page, 1, n, all, &mut bitmap), short);
        }
    }
}

/// Every other entry from the first on takes all of the room.
#[test]
fn the_most_spans_take_all_of_their_room() {
    for n in COUNTS {
        let mut list = vec![99; spans::places(n)];
        let bitmap = vec![0b0101_0101; n.div_ceil(8)];
        let pairs = spans::from_bitmap(&bitmap, n, &mut list);
        assert_eq!(pairs.map(|pairs| 2 * pairs), Ok(list.len()));
    }
}

#[test]
fn there_is_no_room_past_the_limits() {
    let wide = [MAX_WIDTH + 1, 259, u32::MAX].map(|width| (width, 8));
    let many = [MAX_ENTRIES + 1, (1 << 32) + 8, usize::MAX].map(|n| (3, n));
    for (width, n) in wide.into_iter().chain(many) {
        assert_eq!(horizontal::page_bytes(width, n), 0);
        assert_eq!(vertical::page_words(width, n), 0);
        assert_eq!(runs::page_bytes(width, n), 0);
    }
    for (_, n) in many {
        assert_eq!((delta::page_bytes(n), Bitmap::bytes_for(n)), (0, 0));
        assert_eq!(spans::places(n), 0);
    }
}
