//! Where several codes could be given, the first in document 01's order is: packs, and calls of no entries.

use super::layout::Layout;
use crate::reader::calls::{Pack, Scan};
use crate::reader::Unit;
use crate::support::calls::Calls;
use crate::support::lent::Filled;

pub fn packs_with_any_set_of_faults<L: Layout>() {
    let mut calls = Calls::of::<L>("codes of packs in order");
    for set in 0..16u32 {
        let [width, count, entry, short] = [1, 2, 4, 8].map(|fault| set & fault != 0);
        let mut entries = vec![1; if count { 16_385 } else { 9 }];
        if entry {
            entries[8] = 8;
        }
        let enough = L::page_of(&entries, 3).len();
        let packed = calls.pack::<L>(&Pack {
            entries: &entries,
            width: if width { 33 } else { 3 },
            page: &vec![L::Unit::filled(0xA5); enough - usize::from(short)],
        });
        let order = [(width, 1), (count, 2), (entry, 8), (short, 4)];
        let first = order.iter().find(|(fault, _)| *fault);
        let code = first.map_or(0, |&(_, code)| code);
        assert_eq!(packed.code, code, "{order:?}");
    }
    calls.finish();
}

/// Arguments are judged also where there is nothing to read or write.
pub fn no_entries<L: Layout>() {
    let mut calls = Calls::of::<L>("calls of no entries");
    for (width, op, len, code) in [
        (3, 2, 0, 0),
        (33, 8, 0, 1),
        (3, 8, 0, 3),
        (3, 2, 1, 6),
        (0, 2, 1, 6),
        (32, 7, 0, 0),
    ] {
        for room in [0, 1] {
            let scanned = calls.scan::<L>(&Scan {
                page: &vec![L::Unit::of(0); len],
                width,
                n: 0,
                op,
                a: 0,
                b: 0,
                bitmap: &vec![0xA5; room],
            });
            assert_eq!(
                scanned.code, code,
                "width {width}, operator {op}, length {len}"
            );
        }
    }
    let packed = calls.pack::<L>(&Pack {
        entries: &[],
        width: 33,
        page: &[],
    });
    assert_eq!(packed.code, 1, "the empty list of width 33");
    calls.finish();
}
