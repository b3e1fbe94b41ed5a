//! The writer: pages as document 01 has them, and read back.

use super::pages::{entries, COUNTS};
use crate::raw::{cahermisk_delta_bytes, cahermisk_delta_pack, Answer};
use crate::reader::delta::{page_of, Pack};
use crate::signed::comparisons::LARGE_COUNTS;
use crate::support::calls::Calls;
use crate::support::fenced::{Edge, Fenced};
use crate::support::lent::FILLINGS;
use crate::support::random::Random;

/// Packs a list into room that is just enough, and unpacks it. What the library calls enough is enough.
fn there_and_back(calls: &mut Calls, list: &[i32]) -> Vec<u8> {
    let filling = calls.random.pick(&FILLINGS);
    let packed = calls.pack_delta(&Pack {
        entries: list,
        page: &vec![filling; page_of(list).len()],
    });
    assert_eq!(packed.code, 0);
    let page = packed.held;
    assert_eq!(calls.entries_of_delta(&page, list.len()), list);
    // SAFETY: nothing is lent.
    assert!(page.len() <= unsafe { cahermisk_delta_bytes(list.len()) });
    page
}

#[test]
fn every_width_and_count() {
    let mut calls = Calls::of_delta("packs of every width");
    for width in 0..=32 {
        let large = LARGE_COUNTS[width as usize % LARGE_COUNTS.len()];
        for n in COUNTS.into_iter().chain([large]) {
            let list = entries(width, n, &mut calls.random);
            there_and_back(&mut calls, &list);
        }
    }
    calls.finish();
}

/// Two steps, the least and one that is so far above it: a body of the least width that holds this. Entries of 32
/// bits never need more.
#[test]
fn widths_are_least() {
    let mut calls = Calls::of_delta("packs of one width");
    for width in 0..=31u32 {
        for above in [(1u32 << width) - 1, (1 << width) / 2] {
            let page = there_and_back(&mut calls, &[0, 0, above as i32]);
            assert_eq!(page[..7], [0x80, 0x01, 0x04, 0x03, 0x00, 0x00, width as u8]);
            assert_eq!(page.len(), 10 + 4 * width as usize);
        }
    }
    let page = there_and_back(&mut calls, &[0, i32::MIN, -1]);
    assert_eq!(page[5..11], [0xFF, 0xFF, 0xFF, 0xFF, 0x0F, 32]);
    calls.finish();
}

/// The steps at both ends: wrapped deltas are taken as signed numbers.
#[test]
fn steps_at_the_ends() {
    let mut calls = Calls::of_delta("packs of steps at the ends");
    let ends = [
        i32::MIN,
        i32::MIN + 1,
        -2,
        -1,
        0,
        1,
        2,
        i32::MAX - 1,
        i32::MAX,
    ];
    for a in ends {
        for b in ends {
            for c in ends {
                for d in ends {
                    there_and_back(&mut calls, &[a, b, c, d]);
                }
            }
        }
    }
    calls.finish();
}

/// One large step at each place: its own miniblock is wide, and the others of its block stay narrow unless it is
/// the least.
#[test]
fn one_large_step_at_each_place() {
    let mut calls = Calls::of_delta("packs of one large step");
    for n in [34, 130, 258] {
        for place in 1..n {
            for step in [1, -1, 1 << 20, -(1 << 20), i32::MAX, i32::MIN] {
                let list: Vec<i32> = (0..n).map(|i| if i < place { 0 } else { step }).collect();
                there_and_back(&mut calls, &list);
            }
        }
    }
    calls.finish();
}

/// Lists about the limit: 2 before all else.
#[test]
fn the_longest_list() {
    let mut calls = Calls::of_delta("packs about the limit");
    for n in [16_383, 16_384, 16_385, 20_000] {
        for (i, list) in [vec![0; n], entries(32, n, &mut calls.random)]
            .into_iter()
            .enumerate()
        {
            let exact = page_of(&list).len();
            for room in [0, exact - 1, exact, exact + 1] {
                let packed = calls.pack_delta(&Pack {
                    entries: &list,
                    page: &vec![0xA5; room],
                });
                let code = match () {
                    _ if n > 16_384 => 2,
                    _ if room < exact => 4,
                    _ => 0,
                };
                assert_eq!(packed.code, code, "list {i} of {n}, room {room}");
            }
        }
    }
    calls.finish();
}

#[test]
fn packs_at_random() {
    let mut calls = Calls::of_delta("packs at random");
    for _ in 0..10_000 {
        let random = &mut calls.random;
        let width = random.below(33) as u32;
        let n = random.below(300);
        let list = entries(width, n, random);
        let exact = page_of(&list).len();
        let room = (exact + random.below(4)).saturating_sub(random.below(3));
        let page = random.units(room);
        calls.pack_delta(&Pack {
            entries: &list,
            page: &page,
        });
    }
    calls.finish();
}

/// Each place from none to some more than enough, under every filling.
#[test]
fn outputs_short_exact_and_long() {
    let mut calls = Calls::of_delta("packs into every length");
    for (i, n) in COUNTS.into_iter().enumerate() {
        let entries = entries(i as u32, n, &mut calls.random);
        let exact = page_of(&entries).len();
        for filling in FILLINGS {
            for room in [0, 4, 5, exact - 1, exact, exact + 9] {
                let packed = calls.pack_delta(&Pack {
                    entries: &entries,
                    page: &vec![filling; room],
                });
                assert_eq!(packed.code, if room < exact { 4 } else { 0 });
            }
        }
    }
    calls.finish();
}

/// Lists and pages that end or begin where memory does.
#[test]
fn nothing_is_read_outside_the_places() {
    let mut random = Random::new("delta fences of packs");
    for width in 0..=32 {
        for n in COUNTS.into_iter().chain([16_384]) {
            let list = entries(width, n, &mut random);
            let room = page_of(&list);
            for edge in [Edge::End, Edge::Start] {
                let [mut input, mut output] = [Fenced::new(), Fenced::new()];
                let (from, to) = (input.lay(edge, &list), output.lay(edge, &room));
                // SAFETY: the places are valid for their lengths, aligned, and stand apart.
                let packed = unsafe { cahermisk_delta_pack(from, n, to, room.len()) };
                let number = room.len() as u32;
                assert_eq!(packed, Answer { code: 0, number }, "n {n}");
            }
        }
    }
}
