//! The tests of the bare layouts alone.

use crate::layouts::layout::Layout;
use crate::reader::bare::Bare;
use crate::reader::Unit;
use crate::support::lent::Filled;
use crate::support::random::Random;

pub mod faults;
pub mod unused;

/// A layout whose pages have one exact length.
pub trait BareLayout: Layout + Bare {}

impl<L: Layout + Bare> BareLayout for L {}

/// Any bits, but for the unused ones.
pub fn random_page<L: BareLayout>(width: u32, n: usize, random: &mut Random) -> Vec<L::Unit> {
    let mut page: Vec<L::Unit> = random.units(L::page_len(width, n));
    for (at, k) in L::unused_bits(width, n) {
        page[at] = L::Unit::of(page[at].number() & !(1 << k));
    }
    page
}

pub fn page_of_zeros<L: BareLayout>(width: u32, n: usize) -> Vec<L::Unit> {
    vec![L::Unit::filled(0); L::page_len(width, n)]
}

/// All tests of this folder, over one layout.
macro_rules! tests_of_bare {
    ($layout:ident) => {
        $crate::support::tests_over! { bare, $layout:
            faults {
                scans_and_unpacks_with_any_set_of_faults
                width_0
            }
            unused {
                each_unused_bit_set
            }
        }
    };
}
pub(crate) use tests_of_bare;
