//! The three functions of a layout, called beside the second reader.

use super::layout::Layout;
use crate::reader::calls::{pack, scan, unpack, Pack, Scan, Unpack};
use crate::reader::Outcome;
use crate::support::calls::{clipped, Calls};

impl Calls {
    /// The calls of one test of a layout.
    pub fn of<L: Layout>(subject: &str) -> Calls {
        Calls::new(format!("{} {subject}", L::NAME))
    }

    pub fn scan<L: Layout>(&mut self, call: &Scan<L::Unit>) -> Outcome<u8> {
        self.check(
            call.page,
            call.bitmap,
            scan::<L>(call),
            // SAFETY: both places are valid for their lengths, aligned, and stand apart.
            |page, bitmap| unsafe {
                (L::SCAN)(
                    page.ptr(),
                    page.len(),
                    call.width,
                    call.n,
                    call.op,
                    call.a,
                    call.b,
                    bitmap.mut_ptr(),
                    bitmap.len(),
                )
            },
            || {
                format!(
                    "scan: width {}, n {}, operator {}, a {}, b {}, page {}, bitmap {}",
                    call.width,
                    call.n,
                    call.op,
                    call.a,
                    call.b,
                    clipped(call.page),
                    clipped(call.bitmap)
                )
            },
        )
    }

    pub fn unpack<L: Layout>(&mut self, call: &Unpack<L::Unit>) -> Outcome<u32> {
        self.check(
            call.page,
            call.entries,
            unpack::<L>(call),
            // SAFETY: both places are valid for their lengths, aligned, and stand apart.
            |page, entries| unsafe {
                (L::UNPACK)(
                    page.ptr(),
                    page.len(),
                    call.width,
                    call.n,
                    entries.mut_ptr(),
                    entries.len(),
                )
            },
            || {
                format!(
                    "unpack: width {}, n {}, page {}, entries {}",
                    call.width,
                    call.n,
                    clipped(call.page),
                    clipped(call.entries)
                )
            },
        )
    }

    pub fn pack<L: Layout>(&mut self, call: &Pack<L::Unit>) -> Outcome<L::Unit> {
        self.check(
            call.entries,
            call.page,
            pack::<L>(call),
            // SAFETY: both places are valid for their lengths, aligned, and stand apart.
            |entries, page| unsafe {
                (L::PACK)(
                    entries.ptr(),
                    entries.len(),
                    call.width,
                    page.mut_ptr(),
                    page.len(),
                )
            },
            || {
                format!(
                    "pack: width {}, entries {}, page {}",
                    call.width,
                    clipped(call.entries),
                    clipped(call.page)
                )
            },
        )
    }
}
