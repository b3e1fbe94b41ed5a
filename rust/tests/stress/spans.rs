//! Calls of spans.

use super::damage::{about, any_count, damaged, room};
use super::tally::Tally;
use crate::reader::spans::{FromBitmap, ToBitmap};
use crate::spans::samples::{bitmap, list, DENSITIES};
use crate::support::calls::Calls;

/// The spans of a bitmap into room that is enough, or that is cut anywhere.
fn listed(calls: &mut Calls, tally: &mut Tally) {
    let random = &mut calls.random;
    let n = any_count(random);
    let (density, bytes) = (random.pick(&DENSITIES), room(n.div_ceil(8), random));
    let bitmap = bitmap(density, bytes, random);
    let n = about(n, random);
    let cut = random.below(n + 2);
    let places = random.pick(&[n + 1, cut]);
    let filling = random.bits() as u32;
    let call = FromBitmap {
        bitmap: &bitmap,
        n,
        spans: &vec![filling; places],
    };
    tally.count("from bitmap", calls.spans_from_bitmap(&call).code);
}

/// The bitmap of a list, of which a third are damaged.
fn marked(calls: &mut Calls, tally: &mut Tally) {
    let random = &mut calls.random;
    let n = any_count(random);
    let density = random.pick(&DENSITIES);
    let mut spans = list(density, n, random);
    if random.once_in(3) {
        let other = list(density, n, random);
        spans = damaged(&spans, &other, random);
    }
    let n = about(n, random);
    let room = room(n.div_ceil(8), random);
    let call = ToBitmap {
        spans: &spans,
        n,
        bitmap: &random.units(room),
    };
    tally.count("to bitmap", calls.spans_to_bitmap(&call).code);
}

pub fn trial(calls: &mut Calls, tally: &mut Tally) {
    listed(calls, tally);
    marked(calls, tally);
}
