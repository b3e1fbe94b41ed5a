//! The bits of a page in which no entry stands.

use super::BareLayout;
use crate::layouts::lengths::read;
use crate::layouts::pages::{page, KINDS};
use crate::reader::Unit;
use crate::support::calls::Calls;

/// Each unused bit by itself, the kinds of pages in turn.
pub fn each_unused_bit_set<L: BareLayout>() {
    let mut calls = Calls::of::<L>("pages with an unused bit set");
    for width in 1..=32 {
        for n in (1..=9).chain([31, 32, 33, 62, 63, 65, 127, 129]) {
            let good = KINDS.map(|kind| page::<L>(kind, width, n, &mut calls.random));
            for (at, k) in L::unused_bits(width, n) {
                let mut bad = good[(at + k) % KINDS.len()].clone();
                bad[at] = L::Unit::of(bad[at].number() | 1 << k);
                assert_eq!(read::<L>(&mut calls, &bad, width, n), [7; 2]);
                if k % 8 == 7 {
                    // A unit more is judged before the unused bits.
                    bad.push(L::Unit::of(0));
                    assert_eq!(read::<L>(&mut calls, &bad, width, n), [6; 2]);
                }
            }
        }
    }
    calls.finish();
}
