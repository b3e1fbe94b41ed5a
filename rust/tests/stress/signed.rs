//! Calls of the layouts of signed entries.

use super::damage::{about, any_count, any_operator, damaged, room};
use super::tally::Tally;
use crate::delta::pages;
use crate::reader::delta::{page_of, Delta, Pack};
use crate::reader::signed::{Scan, Unpack};
use crate::signed::comparisons::constants;
use crate::signed::layout::{entries, Signed};
use crate::support::calls::Calls;
use crate::support::random::Random;

/// A column by any writer, or a plain one.
fn good<C: Signed>(n: usize, random: &mut Random) -> C {
    let any = C::any(random.below(33) as u32, n, random);
    match random.once_in(3) {
        true => C::of(&entries(&any, n)),
        false => any,
    }
}

/// A column of which one input is damaged.
fn bad<C: Signed>(column: &C, random: &mut Random) -> C {
    let other: C = good(random.below(40), random);
    let (mut inputs, others) = (column.inputs(), other.inputs());
    let i = random.below(inputs.len());
    let input = damaged(inputs[i], others[i], random);
    inputs[i] = &input;
    C::of_inputs(&inputs)
}

/// Half of the columns are damaged, and of all now and then n is one off.
pub fn trial<C: Signed>(calls: &mut Calls, tally: &mut Tally) {
    let random = &mut calls.random;
    let n = any_count(random);
    let mut column: C = good(n, random);
    let constants = constants(&entries(&column, n), random);
    if random.once_in(2) {
        column = bad(&column, random);
    }
    let n = about(n, random);

    let room_of_bits = room(n.div_ceil(8), random);
    let bitmap = random.units(room_of_bits);
    let call = Scan {
        column: &column,
        n,
        op: any_operator(random),
        a: random.pick(&constants),
        b: random.pick(&constants),
        bitmap: &bitmap,
    };
    tally.count("scan", calls.scan_signed(&call).code);

    let filling = calls.random.bits() as i32;
    let call = Unpack {
        column: &column,
        n,
        entries: &vec![filling; room(n, &mut calls.random)],
    };
    tally.count("unpack", calls.unpack_signed(&call).code);
}

/// Also a list to pack.
pub fn trial_of_delta(calls: &mut Calls, tally: &mut Tally) {
    trial::<Delta>(calls, tally);
    let random = &mut calls.random;
    let (width, n) = (random.below(33) as u32, any_count(random));
    let list = pages::entries(width, about(n, random), random);
    let room = room(page_of(&list).len(), random);
    let call = Pack {
        entries: &list,
        page: &random.units(room),
    };
    tally.count("pack", calls.pack_delta(&call).code);
}
