//! The writer's own cuts: where runs begin and close, and how long their headers are.

use crate::layouts::pages::{entries, greatest, KINDS};
use crate::raw::cahermisk_runs_bytes;
use crate::reader::calls::{Pack, Rules, Unpack};
use crate::reader::runs::Runs;
use crate::support::calls::Calls;

/// Packs a list into room that is just enough, and unpacks it.
fn there_and_back(calls: &mut Calls, entries: &[u32], width: u32) -> Vec<u8> {
    let room = vec![0xA5; Runs::page_of(entries, width).len()];
    let page = calls
        .pack::<Runs>(&Pack {
            entries,
            width,
            page: &room,
        })
        .held;
    let unpacked = calls.unpack::<Runs>(&Unpack {
        page: &page,
        width,
        n: entries.len(),
        entries: &vec![99; entries.len()],
    });
    assert_eq!(unpacked.held, entries);
    page
}

/// n entries without a stretch of 8 from any place on: 0 and the greatest in turn.
fn in_turn(n: usize, width: u32) -> Vec<u32> {
    (0..n).map(|i| greatest(width) * (i % 2) as u32).collect()
}

/// A stretch of equal entries after some others and before some more: it is looked for only where a group or a
/// run begins.
#[test]
fn stretches_at_each_place() {
    let mut calls = Calls::of::<Runs>("packs of stretches at each place");
    for width in [1, 3, 8, 17, 32] {
        for before in 0..=17 {
            for stretch in 1..=26 {
                for after in [0, 1, 7, 8, 9] {
                    let mut list = in_turn(before, width);
                    list.extend(vec![greatest(width); stretch]);
                    list.extend(in_turn(after, width));
                    there_and_back(&mut calls, &list, width);
                }
            }
        }
    }
    calls.finish();
}

/// The 63rd group closes a packed run at once, also where the list ends there or a repeated run follows.
#[test]
fn packed_runs_close_at_63_groups() {
    let mut calls = Calls::of::<Runs>("packs of 63 groups");
    for width in [1, 3, 7, 32] {
        for groups in [1, 62, 63, 64, 125, 126, 127, 2048 - 63] {
            for more in [0, 1, 8, 20] {
                let mut list = in_turn(8 * groups, width);
                list.extend(vec![greatest(width); more]);
                there_and_back(&mut calls, &list, width);
            }
        }
    }
    let page = there_and_back(&mut calls, &in_turn(8 * 64, 1), 1);
    assert_eq!((page[0], page[64]), (0x7F, 0x03));
    calls.finish();
}

/// Repeated runs about the lengths at which their header takes a byte more.
#[test]
fn headers_are_shortest() {
    let mut calls = Calls::of::<Runs>("packs of long repeated runs");
    for width in 0..=32 {
        for (length, header) in [
            (8, &[0x10][..]),
            (63, &[0x7E]),
            (64, &[0x80, 0x01]),
            (8191, &[0xFE, 0x7F]),
            (8192, &[0x80, 0x80, 0x01]),
            (16_384, &[0x80, 0x80, 0x02]),
        ] {
            let page = there_and_back(&mut calls, &vec![greatest(width); length], width);
            assert_eq!(page[..header.len()], *header, "{length} entries");
            assert_eq!(page.len(), header.len() + width.div_ceil(8) as usize);
        }
    }
    calls.finish();
}

/// What the library calls enough is enough.
#[test]
fn streams_are_no_longer_than_the_header_says() {
    let mut calls = Calls::of::<Runs>("packs of every kind");
    for width in 0..=32 {
        for n in (0..=40).chain([511, 512, 513, 16_384]) {
            for kind in KINDS {
                let list = entries(kind, width, n, &mut calls.random);
                let page = there_and_back(&mut calls, &list, width);
                // SAFETY: nothing is lent.
                assert!(page.len() <= unsafe { cahermisk_runs_bytes(width, n) });
            }
        }
    }
    calls.finish();
}
