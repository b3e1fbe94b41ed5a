//! Run streams.

use crate::layouts::layout::Layout;
use crate::layouts::tests_of;
use crate::raw;
use crate::reader::calls::Rules;
use crate::reader::runs::Runs;
use crate::support::calls::Calls;
use crate::support::random::Random;
use crate::support::row::Row;

mod bytes;
mod calls;
mod faults;
mod next;
mod offsets;
pub mod streams;
mod writer;

impl Layout for Runs {
    const NAME: &'static str = "runs";
    const SCAN: raw::Scan<u8> = raw::cahermisk_runs_scan;
    const UNPACK: raw::Unpack<u8> = raw::cahermisk_runs_unpack;
    const PACK: raw::Pack<u8> = raw::cahermisk_runs_pack;

    fn random_page(width: u32, n: usize, random: &mut Random) -> Vec<u8> {
        streams::of_another_writer(width, n, random)
    }

    fn page_of_zeros(width: u32, n: usize) -> Vec<u8> {
        Runs::page_of(&vec![0; n], width)
    }

    fn other_call(calls: &mut Calls, name: &str, row: &mut Row, line: &str) -> Result<(), String> {
        match name {
            "next" => calls::next_of_a_row(calls, row, line),
            _ => Err(format!("'{name}' is no function")),
        }
    }
}

tests_of!(Runs);
