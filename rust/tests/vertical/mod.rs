//! Bit planes.

use crate::bare::{self, tests_of_bare};
use crate::layouts::layout::Layout;
use crate::layouts::tests_of;
use crate::raw;
use crate::reader::vertical::Vertical;
use crate::support::random::Random;

mod planes;

impl Layout for Vertical {
    const NAME: &'static str = "vertical";
    const SCAN: raw::Scan<u64> = raw::cahermisk_vertical_scan;
    const UNPACK: raw::Unpack<u64> = raw::cahermisk_vertical_unpack;
    const PACK: raw::Pack<u64> = raw::cahermisk_vertical_pack;

    fn random_page(width: u32, n: usize, random: &mut Random) -> Vec<u64> {
        bare::random_page::<Self>(width, n, random)
    }

    fn page_of_zeros(width: u32, n: usize) -> Vec<u64> {
        bare::page_of_zeros::<Self>(width, n)
    }
}

tests_of!(Vertical);
tests_of_bare!(Vertical);
