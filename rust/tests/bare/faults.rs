//! Where several codes could be given, the first in document 01's order is: 1, 2, 3, 4, 5, 6, 7.

use super::BareLayout;
use crate::reader::calls::{Pack, Scan, Unpack};
use crate::reader::Unit;
use crate::support::calls::Calls;

/// A reading call with any set of faults in it.
#[derive(Clone, Copy, Debug)]
struct Faults {
    width: bool,
    count: bool,
    operator: bool,
    short: bool,
    page: PageFault,
    unused: bool,
}

#[derive(Clone, Copy, Debug, PartialEq)]
enum PageFault {
    None,
    EndsEarly,
    LeftOver,
}

impl Faults {
    fn all() -> impl Iterator<Item = Faults> {
        (0..32u32).flat_map(|set| {
            let pages = [PageFault::None, PageFault::EndsEarly, PageFault::LeftOver];
            pages.map(|page| Faults {
                width: set & 1 != 0,
                count: set & 2 != 0,
                operator: set & 4 != 0,
                short: set & 8 != 0,
                page,
                unused: set & 16 != 0,
            })
        })
    }

    /// The first code that holds; an unpack has no operator to refuse.
    fn code(self, scan: bool) -> u32 {
        match self {
            Faults { width: true, .. } => 1,
            Faults { count: true, .. } => 2,
            Faults { operator: true, .. } if scan => 3,
            Faults { short: true, .. } => 4,
            Faults {
                page: PageFault::EndsEarly,
                ..
            } => 5,
            Faults {
                page: PageFault::LeftOver,
                ..
            } => 6,
            Faults { unused: true, .. } => 7,
            _ => 0,
        }
    }

    /// The page of 9 entries of width 3, with what is wrong with it.
    fn page<L: BareLayout>(self) -> Vec<L::Unit> {
        let mut page = L::page_of(&[0, 1, 2, 3, 4, 5, 6, 7, 5], 3);
        if let (true, Some((at, k))) = (self.unused, L::unused_bits(3, 9).pop()) {
            page[at] = L::Unit::of(page[at].number() | 1 << k);
        }
        match self.page {
            PageFault::None => {}
            PageFault::EndsEarly => drop(page.remove(0)),
            PageFault::LeftOver => page.push(L::Unit::of(0)),
        }
        page
    }
}

pub fn scans_and_unpacks_with_any_set_of_faults<L: BareLayout>() {
    let mut calls = Calls::of::<L>("codes in order");
    for faults in Faults::all() {
        let page = faults.page::<L>();
        let width = if faults.width { 33 } else { 3 };
        let n = if faults.count { 16_385 } else { 9 };
        let enough = if faults.count { 2049 } else { 2 };
        let scanned = calls.scan::<L>(&Scan {
            page: &page,
            width,
            n,
            op: if faults.operator { 8 } else { 2 },
            a: 3,
            b: 0,
            bitmap: &vec![0xA5; enough - usize::from(faults.short)],
        });
        assert_eq!(scanned.code, faults.code(true), "scan with {faults:?}");
        let unpacked = calls.unpack::<L>(&Unpack {
            page: &page,
            width,
            n,
            entries: &vec![99; n - usize::from(faults.short)],
        });
        assert_eq!(unpacked.code, faults.code(false), "unpack with {faults:?}");
    }
    calls.finish();
}

/// At width 0 the page is empty whatever n is.
pub fn width_0<L: BareLayout>() {
    let mut calls = Calls::of::<L>("calls of width 0");
    for n in [0, 1, 8, 16_384] {
        for (page, code) in [(&[][..], 0), (&[0], 6), (&[1], 6)] {
            let page: Vec<L::Unit> = page.iter().copied().map(L::Unit::of).collect();
            let scanned = calls.scan::<L>(&Scan {
                page: &page,
                width: 0,
                n,
                op: 3,
                a: 0,
                b: 0,
                bitmap: &vec![0xA5; n.div_ceil(8)],
            });
            assert_eq!(scanned.code, code, "n {n}, {page:?}");
        }
    }
    for (entry, code) in [(0, 0), (1, 8), (u32::MAX, 8)] {
        let packed = calls.pack::<L>(&Pack {
            entries: &[0, entry],
            width: 0,
            page: &[],
        });
        assert_eq!(packed.code, code, "entry {entry}");
    }
    calls.finish();
}
