//! Where several codes could be given, the first is: 2, 3, 4, and then the column's own.

use super::layout::Signed;
use crate::reader::signed::{Scan, Unpack};
use crate::support::calls::Calls;

/// Calls with a faulty column of n entries, whose code is `in_column`, under any set of faulty arguments.
pub fn under_any_set_of_faulty_arguments<C: Signed>(
    calls: &mut Calls,
    column: &C,
    n: usize,
    in_column: u32,
) {
    for set in 0..8u32 {
        let [count, operator, short] = [1, 2, 4].map(|fault| set & fault != 0);
        let n = if count { 16_385 } else { n };
        let first = |faults: &[(bool, u32)]| {
            let found = faults.iter().find(|(fault, _)| *fault);
            found.map_or(in_column, |&(_, code)| code)
        };
        let scanned = calls.scan_signed(&Scan {
            column,
            n,
            op: if operator { 8 } else { 2 },
            a: 3,
            b: 0,
            bitmap: &vec![0xA5; n.div_ceil(8) - usize::from(short)],
        });
        let code = first(&[(count, 2), (operator, 3), (short, 4)]);
        let inputs = column.inputs();
        assert_eq!(scanned.code, code, "scan of {inputs:02x?}, faults {set}");
        let unpacked = calls.unpack_signed(&Unpack {
            column,
            n,
            entries: &vec![99; n - usize::from(short)],
        });
        let code = first(&[(count, 2), (short, 4)]);
        assert_eq!(unpacked.code, code, "unpack of {inputs:02x?}, faults {set}");
    }
}
