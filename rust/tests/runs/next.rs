//! One run asked for by itself.

use super::streams::of_another_writer;
use crate::layouts::pages::SMALL_COUNTS;
use crate::raw::{cahermisk_runs_next, RunAnswer};
use crate::reader::calls::Rules;
use crate::reader::horizontal::Horizontal;
use crate::reader::runs::{Next, Runs};
use crate::support::calls::Calls;
use crate::support::fenced::{Edge, Fenced};
use crate::support::random::Random;

/// All runs of a stream, in turn: their entries are the stream's, and they end where the page does.
fn walk(calls: &mut Calls, page: &[u8], width: u32, n: usize) {
    let mut entries = Vec::new();
    let mut at = 0;
    while entries.len() < n {
        let covered = entries.len();
        let run = calls.next(&Next {
            page,
            width,
            n,
            at,
            covered,
        });
        assert_eq!(run.code, 0);
        match run.kind {
            0 => entries.extend(vec![run.value; run.length]),
            _ => {
                let body = &page[run.body_at..][..run.body_len];
                let group = Horizontal::read(body, width, run.length);
                entries.extend(group.expect("whole groups"));
            }
        }
        assert_eq!(entries.len(), covered + run.length);
        at = run.next;
    }
    assert_eq!(at, page.len());
    assert_eq!(Ok(&entries[..n]), Runs::read(page, width, n).as_deref());
}

#[test]
fn streams_run_by_run() {
    let mut calls = Calls::of::<Runs>("streams run by run");
    for width in 0..=32 {
        for n in SMALL_COUNTS.into_iter().chain([1000, 16_384]) {
            let page = of_another_writer(width, n, &mut calls.random);
            walk(&mut calls, &page, width, n);
        }
    }
    calls.finish();
}

/// Each place of a page, and some past it, as if any number were covered.
#[test]
fn each_place_of_a_page() {
    let mut calls = Calls::of::<Runs>("runs at each place");
    for width in 0..=32 {
        for n in [0, 1, 9, 40] {
            let page = of_another_writer(width, n, &mut calls.random);
            for at in (0..page.len() + 3).chain([1 << 32, usize::MAX - 1, usize::MAX]) {
                for covered in (0..=n + 1).chain([1 << 32, usize::MAX - 7, usize::MAX]) {
                    calls.next(&Next {
                        page: &page,
                        width,
                        n,
                        at,
                        covered,
                    });
                }
            }
        }
    }
    calls.finish();
}

/// Arguments beyond their limits, also ones that look good once they are cut, in document 01's order.
#[test]
fn arguments_about_the_limits() {
    let mut calls = Calls::of::<Runs>("runs with arguments about the limits");
    let page = [0x06, 0x04, 0x03, 0x88, 0xC6, 0xFA];
    for width in (0..=34).chain([256 + 3, 1 << 31, u32::MAX]) {
        for n in [0, 3, 11, 16_384, 16_385, (1 << 32) + 11, usize::MAX] {
            for at in [0, 2, 6, 7, 1 << 32, usize::MAX] {
                for covered in [
                    0,
                    3,
                    11,
                    n.wrapping_sub(1),
                    n,
                    n.saturating_add(1),
                    usize::MAX,
                ] {
                    let run = calls.next(&Next {
                        page: &page,
                        width,
                        n,
                        at,
                        covered,
                    });
                    let code = match () {
                        _ if width > 32 => 1,
                        _ if n > 16_384 => 2,
                        _ if at > 6 => 5,
                        _ if covered >= n => 11,
                        _ => continue,
                    };
                    let refused = RunAnswer {
                        code,
                        ..RunAnswer::default()
                    };
                    assert_eq!(run, refused);
                }
            }
        }
    }
    calls.finish();
}

/// Nothing is read outside the page, wherever the run is.
#[test]
fn pages_at_the_edges_of_memory() {
    let mut random = Random::new("runs at the edges of memory");
    let mut memory = Fenced::new();
    for width in 0..=32 {
        for n in [1, 9, 100] {
            let page = of_another_writer(width, n, &mut random);
            for edge in [Edge::Start, Edge::End] {
                for len in [page.len(), page.len() - 1] {
                    let place = memory.lay(edge, &page[..len]);
                    for at in 0..=len + 1 {
                        // SAFETY: the place is valid for its length.
                        let run = unsafe { cahermisk_runs_next(place, len, width, n, at, 0) };
                        assert!(run.body_at + run.body_len <= len);
                    }
                }
            }
        }
    }
}
