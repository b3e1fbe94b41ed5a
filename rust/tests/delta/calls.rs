//! The pack of delta pages beside the second reader, and pages as they are read.

use crate::raw::cahermisk_delta_pack;
use crate::reader::delta::{pack, Delta, Pack};
use crate::reader::Outcome;
use crate::support::calls::{clipped, Calls};

impl Calls {
    /// The calls of one test of delta pages.
    pub fn of_delta(subject: &str) -> Calls {
        Calls::of_signed::<Delta>(subject)
    }

    pub fn pack_delta(&mut self, call: &Pack) -> Outcome<u8> {
        self.check(
            call.entries,
            call.page,
            pack(call),
            // SAFETY: both places are valid for their lengths, aligned, and stand apart.
            |entries, page| unsafe {
                cahermisk_delta_pack(entries.ptr(), entries.len(), page.mut_ptr(), page.len())
            },
            || {
                format!(
                    "pack: entries {}, page {}",
                    clipped(call.entries),
                    clipped(call.page)
                )
            },
        )
    }

    /// A scan and an unpack of any bytes as a page: the code that both give.
    pub fn read_delta(&mut self, page: &[u8], n: usize) -> u32 {
        self.read_signed(&Delta(page.to_vec()), n)
    }

    /// An unpack of a good page into room that is just enough: the entries.
    pub fn entries_of_delta(&mut self, page: &[u8], n: usize) -> Vec<i32> {
        self.entries_signed(&Delta(page.to_vec()), n)
    }
}
