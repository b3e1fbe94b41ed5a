//! Block sizes and miniblock counts: those that a page may have, and all others.

use super::pages::{any_shape, entries, of_another_writer, shapes, Shape, COUNTS};
use crate::signed::comparisons::LARGE_COUNTS;
use crate::support::calls::Calls;
use crate::support::spelling::any_spelling;

/// A page of one entry is judged by its shape alone.
#[test]
fn every_shape_of_a_header() {
    let mut calls = Calls::of_delta("shapes of headers");
    let sizes = (0..=520).chain((576..=17_000).step_by(64));
    let huge = [
        1 << 15,
        1 << 16,
        1 << 20,
        1 << 31,
        (1 << 32) - 128,
        (1 << 32) - 1,
    ];
    let good = shapes();
    for size in sizes.chain(huge) {
        let counts = (0..=9).chain([12, 15, 16, 20, 31, 32, 64, 128, 511, 512, 513]);
        for minis in counts.chain([size / 32, size / 32 + 1, size / 128, size, u32::MAX.into()]) {
            let mut page = any_spelling(size, &mut calls.random);
            page.extend(any_spelling(minis, &mut calls.random));
            page.extend([0x01, 0x09]);
            let shaped = |s: &Shape| s.block_size as u64 == size && s.miniblocks as u64 == minis;
            let code = if good.iter().any(shaped) { 0 } else { 12 };
            assert_eq!(calls.read_delta(&page, 1), code, "{size} in {minis}");
        }
    }
    calls.finish();
}

/// Counts where a miniblock or a block of the shape ends, or just goes on.
fn counts(shape: Shape) -> [usize; 4] {
    let mini = shape.block_size / shape.miniblocks;
    [
        mini + 1,
        mini + 2,
        shape.block_size + 1,
        shape.block_size + 2,
    ]
    .map(|n| n.min(16_384))
}

/// All shapes, with counts about the ends of their miniblocks and blocks: the entries are those written.
#[test]
fn pages_of_every_shape() {
    let mut calls = Calls::of_delta("pages of every shape");
    for (i, shape) in shapes().into_iter().enumerate() {
        let n = counts(shape)[i % 4];
        let entries = entries(i as u32 % 9, n, &mut calls.random);
        let page = of_another_writer(&entries, shape, &mut calls.random);
        assert_eq!(
            calls.entries_of_delta(&page, n),
            entries,
            "{shape:?}, n {n}"
        );
        if n < 2000 {
            assert_eq!(calls.read_delta(&page, n), 0, "{shape:?}, n {n}");
        }
    }
    calls.finish();
}

/// All widths and awkward counts, by other writers: the entries are those written.
#[test]
fn pages_of_other_writers() {
    let mut calls = Calls::of_delta("pages of other writers");
    for width in 0..=32 {
        for n in COUNTS.into_iter().chain([LARGE_COUNTS[width as usize % 5]]) {
            for _ in 0..4 {
                let entries = entries(width, n, &mut calls.random);
                let shape = any_shape(&mut calls.random);
                let page = of_another_writer(&entries, shape, &mut calls.random);
                assert_eq!(
                    calls.entries_of_delta(&page, n),
                    entries,
                    "{shape:?}, n {n}"
                );
                assert_eq!(calls.read_delta(&page, n), 0);
                if n > 1000 {
                    break;
                }
            }
        }
    }
    calls.finish();
}
