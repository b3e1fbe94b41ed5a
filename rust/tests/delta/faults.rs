//! Where several codes could be given, the first is: 2, 3, 4, and then the first fault in reading order.

use crate::reader::delta::{page_of, Delta};
use crate::reader::numbers::shortest;
use crate::signed::order::under_any_set_of_faulty_arguments;
use crate::support::calls::Calls;

/// Headers of 34 entries with a fault, and its code. Where one of them has a second fault, that comes later in
/// reading order: all four numbers are read, then the shape is judged, then the count.
const HEADERS: [(&[u8], u32); 25] = [
    (&[], 5),
    (&[0x80], 5),
    (&[0x80, 0x01], 5),
    (&[0x80, 0x01, 0x04], 5),
    (&[0x80, 0x01, 0x04, 0x22], 5),
    (&[0x80, 0x01, 0x04, 0x22, 0x80], 5),
    (&[0x80, 0x80, 0x80, 0x80, 0x10], 9),
    (&[0xFF, 0xFF, 0xFF, 0xFF, 0xFF], 9),
    (&[0x80, 0x01, 0x84, 0x80, 0x80, 0x80, 0x10], 9),
    (&[0x80, 0x01, 0x04, 0xA2, 0x80, 0x80, 0x80, 0x10], 9),
    (&[0x80, 0x01, 0x04, 0x22, 0xFF, 0xFF, 0xFF, 0xFF, 0x1F], 9),
    (&[0x08, 0x01, 0x22], 5),
    (&[0x08, 0x01, 0x22, 0x80, 0x80, 0x80, 0x80, 0x10], 9),
    (&[0x80, 0x01, 0x04, 0x21, 0x80], 5),
    (&[0x80, 0x01, 0x04, 0x21, 0x80, 0x80, 0x80, 0x80, 0x10], 9),
    (&[0x08, 0x01, 0x22, 0x00], 12),
    (&[0x08, 0x01, 0x21, 0x00], 12),
    (&[0x00, 0x01, 0x22, 0x00], 12),
    (&[0x80, 0x01, 0x00, 0x22, 0x00], 12),
    (&[0x80, 0x01, 0x03, 0x22, 0x00], 12),
    (&[0x80, 0x01, 0x08, 0x22, 0x00], 12),
    (&[0x80, 0x01, 0x04, 0x21, 0x00], 13),
    (&[0x80, 0x01, 0x04, 0x23, 0x00], 13),
    (&[0x80, 0x01, 0x04, 0xA2, 0x80, 0x01, 0x00], 13),
    (&[0x80, 0x01, 0x04, 0xA2, 0x80, 0x80, 0x80, 0x08, 0x00], 13),
];

/// A good header of 34 entries, so of two needed miniblocks of 32, and the blocks behind it with a fault: the
/// smallest delta, the width bytes first to last, then the bodies, and what is left over.
const HEADER: [u8; 5] = [0x80, 0x01, 0x04, 0x22, 0x00];
const BLOCKS: [(&[u8], u32); 16] = [
    (&[], 5),
    (&[0x80], 5),
    (&[0x80, 0x80, 0x80, 0x80, 0x10], 9),
    (&[0x00, 0x00], 5),
    (&[0x00, 0x20], 5),
    (&[0x00, 0x21], 1),
    (&[0x00, 0x00, 0xFF, 0x01], 1),
    (&[0x00, 0x21, 0x00, 0x01, 0x00], 1),
    (&[0x00, 0x00, 0x21, 0xFF], 1),
    (&[0x00, 0x00, 0x00, 0xFF], 5),
    (&[0x00, 0x01, 0x01, 0xFF, 0x40], 5),
    (&[0x00, 0x00, 0x00, 0xFF, 0x40, 0x07], 6),
    (&[0x00, 0x01, 0x00, 0x00, 0x00, 1, 2, 3], 5),
    (&[0x00, 0x01, 0x01, 0x00, 0x00, 1, 2, 3, 4, 5], 5),
    (&[0x00, 0x01, 0x00, 0x00, 0x00, 1, 2, 3, 4, 5], 6),
    (&[0x00, 0x00, 0x00, 0x00, 0x00, 0x00], 6),
];

/// All of these as pages.
fn faulty() -> Vec<(Vec<u8>, u32)> {
    let headers = HEADERS.map(|(page, code)| (page.to_vec(), code));
    let blocks = BLOCKS.map(|(block, code)| ([&HEADER, block].concat(), code));
    headers.into_iter().chain(blocks).collect()
}

#[test]
fn faulty_pages_under_any_set_of_faulty_arguments() {
    let mut calls = Calls::of_delta("codes in order");
    for (page, in_page) in faulty() {
        under_any_set_of_faulty_arguments(&mut calls, &Delta(page), 34, in_page);
    }
    calls.finish();
}

/// A page that says it has more than 16,384 entries is 13: only the argument is 2.
#[test]
fn the_count_in_the_page() {
    let mut calls = Calls::of_delta("counts in the page");
    for n in [0, 1, 16_384] {
        for count in [
            n + 1,
            n + (1 << 14),
            n + (1 << 16),
            n + (1 << 31),
            u32::MAX as usize,
        ] {
            let mut page = vec![0x80, 0x01, 0x04];
            page.extend(shortest(count as u64));
            page.push(0);
            assert_eq!(calls.read_delta(&page, n), 13, "n {n}, count {count}");
        }
    }
    calls.finish();
}

/// The header is needed also for no entries, and for one nothing follows it.
#[test]
fn no_blocks() {
    let mut calls = Calls::of_delta("pages of no blocks");
    for n in [0, 1] {
        let header = [0x80, 0x01, 0x04, n as u8, 0x09];
        assert_eq!(calls.read_delta(&header, n), 0);
        assert_eq!(calls.read_delta(&[], n), 5);
        assert_eq!(calls.read_delta(&header[..4], n), 5);
        assert_eq!(calls.read_delta(&header, 1 - n), 13);
        for more in [0x00, 0x02, 0x80, 0xFF] {
            assert_eq!(calls.read_delta(&[&header[..], &[more]].concat(), n), 6);
        }
    }
    assert_eq!(
        calls.entries_of_delta(&[0x80, 0x01, 0x04, 0x01, 0x09], 1),
        [-5]
    );
    calls.finish();
}

/// The second block is judged as the first is, behind the first one's bodies.
#[test]
fn the_second_block() {
    let mut calls = Calls::of_delta("faults of the second block");
    let header = [0x80, 0x01, 0x04, 0x82, 0x01, 0x00];
    let first = [&[0x00, 0x01, 0x00, 0x00, 0x00][..], &[7; 4]].concat();
    for (second, code) in [
        (&[][..], 5),
        (&[0x80, 0x80, 0x80, 0x80, 0x10], 9),
        (&[0x00, 0x21], 1),
        (&[0x00, 0x20], 5),
        (&[0x00, 0x00, 0xFF], 5),
        (&[0x00, 0x00, 0xFF, 0x40, 0x07], 0),
        (&[0x00, 0x01, 0xFF, 0x40, 0x07, 1, 2, 3, 4], 0),
        (&[0x00, 0x01, 0x00, 0x00, 0x00, 1, 2, 3], 5),
        (&[0x00, 0x01, 0x00, 0x00, 0x00, 1, 2, 3, 4], 0),
        (&[0x00, 0x01, 0x00, 0x00, 0x00, 1, 2, 3, 4, 5], 6),
    ] {
        let page = [&header[..], &first, second].concat();
        assert_eq!(calls.read_delta(&page, 130), code, "{second:02x?}");
    }
    calls.finish();
}

/// Each width byte of the last block by itself above 32, at all counts: 1 if the miniblock holds a delta of an
/// entry below n, and else no fault. Equal entries have no bodies, so that those width bytes end the page.
#[test]
fn width_bytes_of_the_last_block() {
    let mut calls = Calls::of_delta("width bytes of the last block");
    for n in 2..=400 {
        let page = page_of(&vec![7; n]);
        let left = (n - 2) % 128 + 1;
        for m in 0..4 {
            let mut wide = page.clone();
            wide[page.len() - 4 + m] = 33;
            let code = if 32 * m < left { 1 } else { 0 };
            assert_eq!(calls.read_delta(&wide, n), code, "n {n}, miniblock {m}");
        }
    }
    calls.finish();
}

/// Any number as the width of an unneeded miniblock, before a body and before the page's end: the entries stay
/// what they are, and a page that ends among those bytes is 5.
#[test]
fn old_numbers_as_unneeded_widths() {
    let mut calls = Calls::of_delta("old numbers as unneeded widths");
    for entries in [&[7, 5, 3, 1, 2, 3, 4, 5][..], &[7; 8]] {
        let page = page_of(entries);
        for place in 7..10 {
            assert_eq!(calls.read_delta(&page[..place], 8), 5, "ends at {place}");
            for number in 0..=u8::MAX {
                let mut old = page.clone();
                old[place] = number;
                assert_eq!(
                    calls.entries_of_delta(&old, 8),
                    entries,
                    "{number} at {place}"
                );
            }
        }
    }
    calls.finish();
}
