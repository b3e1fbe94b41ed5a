//! Bare horizontal pages.

use crate::bare::{self, tests_of_bare};
use crate::layouts::layout::Layout;
use crate::layouts::tests_of;
use crate::raw;
use crate::reader::horizontal::Horizontal;
use crate::support::random::Random;

impl Layout for Horizontal {
    const NAME: &'static str = "horizontal";
    const SCAN: raw::Scan<u8> = raw::cahermisk_horizontal_scan;
    const UNPACK: raw::Unpack<u8> = raw::cahermisk_horizontal_unpack;
    const PACK: raw::Pack<u8> = raw::cahermisk_horizontal_pack;

    fn random_page(width: u32, n: usize, random: &mut Random) -> Vec<u8> {
        bare::random_page::<Self>(width, n, random)
    }

    fn page_of_zeros(width: u32, n: usize) -> Vec<u8> {
        bare::page_of_zeros::<Self>(width, n)
    }
}

tests_of!(Horizontal);
tests_of_bare!(Horizontal);
