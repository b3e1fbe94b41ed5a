//! The two functions of a layout of signed entries, called beside the second reader.

use super::layout::{Place, Signed};
use crate::reader::signed::{scan, unpack, Scan, Unpack};
use crate::reader::Outcome;
use crate::support::calls::{clipped, Calls};
use crate::support::lent::{Filled, Lent, FILLINGS};

/// All that is lent for reading.
fn places(inputs: &[Lent<u8>]) -> Vec<Place> {
    let place = |input: &Lent<u8>| (input.ptr(), input.len());
    inputs.iter().map(place).collect()
}

/// All that is lent for reading, to be shown.
fn shown<C: Signed>(column: &C) -> String {
    let inputs: Vec<String> = column.inputs().into_iter().map(clipped).collect();
    format!("column {}", inputs.join(" "))
}

impl Calls {
    /// The calls of one test of a layout of signed entries.
    pub fn of_signed<C: Signed>(subject: &str) -> Calls {
        Calls::new(format!("{} {subject}", C::NAME))
    }

    pub fn scan_signed<C: Signed>(&mut self, call: &Scan<C>) -> Outcome<u8> {
        let Scan { n, op, a, b, .. } = *call;
        self.check_inputs(
            &call.column.inputs(),
            call.bitmap,
            scan(call),
            // SAFETY: all places are valid for their lengths, aligned, and stand apart.
            |inputs, bitmap| unsafe {
                let (at, room) = (bitmap.mut_ptr(), bitmap.len());
                C::scan(&places(inputs), n, op, a, b, at, room)
            },
            || {
                let (column, bitmap) = (shown(call.column), clipped(call.bitmap));
                format!("scan: n {n}, operator {op}, a {a}, b {b}, {column}, bitmap {bitmap}")
            },
        )
    }

    pub fn unpack_signed<C: Signed>(&mut self, call: &Unpack<C>) -> Outcome<i32> {
        let n = call.n;
        self.check_inputs(
            &call.column.inputs(),
            call.entries,
            unpack(call),
            // SAFETY: all places are valid for their lengths, aligned, and stand apart.
            |inputs, entries| unsafe {
                let (at, room) = (entries.mut_ptr(), entries.len());
                C::unpack(&places(inputs), n, at, room)
            },
            || {
                let (column, entries) = (shown(call.column), clipped(call.entries));
                format!("unpack: n {n}, {column}, entries {entries}")
            },
        )
    }

    /// A scan and an unpack of anything as a column: the code that both give.
    pub fn read_signed<C: Signed>(&mut self, column: &C, n: usize) -> u32 {
        let filling = self.random.pick(&FILLINGS);
        let scanned = self.scan_signed(&Scan {
            column,
            n,
            op: 5,
            a: 1,
            b: 0,
            bitmap: &vec![filling; n.div_ceil(8) + 1],
        });
        let unpacked = self.unpack_signed(&Unpack {
            column,
            n,
            entries: &vec![i32::filled(filling); n + 1],
        });
        assert_eq!(scanned.code, unpacked.code);
        scanned.code
    }

    /// An unpack of a good column into room that is just enough: the entries.
    pub fn entries_signed<C: Signed>(&mut self, column: &C, n: usize) -> Vec<i32> {
        let unpacked = self.unpack_signed(&Unpack {
            column,
            n,
            entries: &vec![99; n],
        });
        assert_eq!(unpacked.code, 0);
        unpacked.held
    }
}
