//! Packing, and packing and unpacking one after the other.

use super::layout::Layout;
use super::pages::{entries, greatest, Kind, KINDS, LARGE_COUNTS, SMALL_COUNTS};
use crate::reader::calls::{Pack, Unpack};
use crate::support::calls::Calls;
use crate::support::lent::{Filled, FILLINGS};

pub fn packs_with_every_room<L: Layout>() {
    let mut calls = Calls::of::<L>("packs");
    for width in 0..=32 {
        for n in SMALL_COUNTS {
            for kind in KINDS {
                let entries = entries(kind, width, n, &mut calls.random);
                let exact = L::page_of(&entries, width).len();
                for room in [0, exact.saturating_sub(1), exact, exact + 1, exact + 9] {
                    for filling in FILLINGS {
                        let packed = calls.pack::<L>(&Pack {
                            entries: &entries,
                            width,
                            page: &vec![L::Unit::filled(filling); room],
                        });
                        assert_eq!(packed.code, if room < exact { 4 } else { 0 });
                    }
                }
            }
        }
    }
    calls.finish();
}

/// One entry is not below 2^width, by little or by much, at each place; with room and without.
pub fn an_entry_too_large<L: Layout>() {
    let mut calls = Calls::of::<L>("packs of an entry too large");
    for width in 0..32 {
        for n in (1..=20).chain([65, 129]) {
            let good = entries(Kind::Random, width, n, &mut calls.random);
            let exact = L::page_of(&good, width).len();
            for place in 0..n {
                for too_large in [1 << width, 1 << 31, u32::MAX, greatest(width) + 1] {
                    let mut bad = good.clone();
                    bad[place] = too_large;
                    for room in [0, exact, 8 * exact + 8 * n] {
                        let packed = calls.pack::<L>(&Pack {
                            entries: &bad,
                            width,
                            page: &vec![L::Unit::filled(0xA5); room],
                        });
                        assert_eq!(packed.code, 8);
                    }
                }
            }
        }
    }
    calls.finish();
}

pub fn packs_at_random<L: Layout>() {
    let mut calls = Calls::of::<L>("packs at random");
    for _ in 0..60_000 {
        let random = &mut calls.random;
        let width = random.below(34) as u32;
        let n = random.below(200);
        let kind = random.pick(&KINDS);
        let mut list = entries(kind, width.min(32), n, random);
        if n > 0 && random.once_in(6) {
            list[random.below(n)] = random.bits() as u32;
        }
        let exact = L::page_of(&list, width).len();
        let room = (exact + random.below(4)).saturating_sub(random.below(2));
        let page = random.units(room);
        calls.pack::<L>(&Pack {
            entries: &list,
            width,
            page: &page,
        });
    }
    calls.finish();
}

/// Unpack gives back what was packed, and pack the page unpacked.
pub fn round_trips<L: Layout>() {
    let mut calls = Calls::of::<L>("round trips");
    for width in 0..=32 {
        for n in SMALL_COUNTS.into_iter().chain(LARGE_COUNTS) {
            for kind in KINDS {
                let entries = entries(kind, width, n, &mut calls.random);
                let room = vec![L::Unit::filled(0xFF); L::page_of(&entries, width).len()];
                let pack = |calls: &mut Calls, entries: &[u32]| {
                    calls.pack::<L>(&Pack {
                        entries,
                        width,
                        page: &room,
                    })
                };
                let page = pack(&mut calls, &entries).held;
                let unpacked = calls.unpack::<L>(&Unpack {
                    page: &page,
                    width,
                    n,
                    entries: &vec![0xA5A5_A5A5; n],
                });
                assert_eq!(unpacked.held, entries);
                assert_eq!(pack(&mut calls, &unpacked.held).held, page);
            }
        }
    }
    calls.finish();
}
