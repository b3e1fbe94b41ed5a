//! The two functions of spans, called beside the second reader.

use crate::raw::{cahermisk_spans_from_bitmap, cahermisk_spans_to_bitmap};
use crate::reader::spans::{from_bitmap, to_bitmap, FromBitmap, ToBitmap};
use crate::reader::Outcome;
use crate::support::calls::{clipped, Calls};
use crate::support::lent::{Filled, FILLINGS};

impl Calls {
    /// The calls of one test of spans.
    pub fn of_spans(subject: &str) -> Calls {
        Calls::new(format!("spans {subject}"))
    }

    pub fn spans_from_bitmap(&mut self, call: &FromBitmap) -> Outcome<u32> {
        let n = call.n;
        self.check(
            call.bitmap,
            call.spans,
            from_bitmap(call),
            // SAFETY: both places are valid for their lengths, aligned, and stand apart.
            |bitmap, spans| unsafe {
                let (at, room) = (spans.mut_ptr(), spans.len());
                cahermisk_spans_from_bitmap(bitmap.ptr(), bitmap.len(), n, at, room)
            },
            || {
                let (bitmap, spans) = (clipped(call.bitmap), clipped(call.spans));
                format!("from bitmap: n {n}, bitmap {bitmap}, spans {spans}")
            },
        )
    }

    pub fn spans_to_bitmap(&mut self, call: &ToBitmap) -> Outcome<u8> {
        let n = call.n;
        self.check(
            call.spans,
            call.bitmap,
            to_bitmap(call),
            // SAFETY: both places are valid for their lengths, aligned, and stand apart.
            |spans, bitmap| unsafe {
                let (at, room) = (bitmap.mut_ptr(), bitmap.len());
                cahermisk_spans_to_bitmap(spans.ptr(), spans.len(), n, at, room)
            },
            || {
                let (spans, bitmap) = (clipped(call.spans), clipped(call.bitmap));
                format!("to bitmap: n {n}, spans {spans}, bitmap {bitmap}")
            },
        )
    }

    /// The spans of a bitmap, written to so much room.
    pub fn list_of(&mut self, bitmap: &[u8], n: usize, room: usize) -> Outcome<u32> {
        let filling = self.random.pick(&FILLINGS);
        self.spans_from_bitmap(&FromBitmap {
            bitmap,
            n,
            spans: &vec![u32::filled(filling); room],
        })
    }

    /// The bitmap of spans, written to so much room.
    pub fn bitmap_of(&mut self, spans: &[u32], n: usize, room: usize) -> Outcome<u8> {
        let filling = self.random.pick(&FILLINGS);
        self.spans_to_bitmap(&ToBitmap {
            spans,
            n,
            bitmap: &vec![filling; room],
        })
    }
}
