//! Bitmaps and lists that end or begin where memory does.

use super::samples::{bitmap, list, COUNTS, DENSITIES};
use crate::raw::{cahermisk_spans_from_bitmap, cahermisk_spans_to_bitmap, Answer};
use crate::reader::spans::{from_bitmap, to_bitmap, FromBitmap, ToBitmap};
use crate::reader::Outcome;
use crate::support::fenced::{Edge, Fenced};
use crate::support::random::Random;

/// What is answered, as the second reader has it.
fn answer<T>(outcome: &Outcome<T>) -> Answer {
    let Outcome { code, number, .. } = *outcome;
    Answer { code, number }
}

/// The spans of a bitmap into so much room, both at the same edge.
fn spans_of(bitmap: &[u8], n: usize, room: usize, edge: Edge) -> u32 {
    let spans = &vec![0xA5A5_A5A5; room];
    let want = from_bitmap(&FromBitmap { bitmap, n, spans });
    let [mut input, mut output] = [Fenced::new(), Fenced::new()];
    let (from, to) = (input.lay(edge, bitmap), output.lay(edge, spans));
    // SAFETY: the places are valid for their lengths, aligned, and stand apart.
    let given = unsafe { cahermisk_spans_from_bitmap(from, bitmap.len(), n, to, room) };
    assert_eq!(given, answer(&want), "n {n}, room {room}");
    given.code
}

/// The bitmap of spans, both at the same edge.
fn bitmap_of(spans: &[u32], n: usize, room: usize, edge: Edge) -> u32 {
    let bitmap = &vec![0xA5; room];
    let want = to_bitmap(&ToBitmap { spans, n, bitmap });
    let [mut input, mut output] = [Fenced::new(), Fenced::new()];
    let (from, to) = (input.lay(edge, spans), output.lay(edge, bitmap));
    // SAFETY: as above.
    let given = unsafe { cahermisk_spans_to_bitmap(from, spans.len(), n, to, room) };
    assert_eq!(given, answer(&want), "n {n}, room {room}");
    given.code
}

#[test]
fn nothing_is_read_outside_the_places() {
    let mut random = Random::new("spans fences");
    for density in DENSITIES {
        for n in COUNTS.into_iter().chain([16_384]) {
            let exact = n.div_ceil(8);
            let bitmap = bitmap(density, exact, &mut random);
            let spans = list(density, n, &mut random);
            for edge in [Edge::End, Edge::Start] {
                assert_eq!(spans_of(&bitmap, n, n + 1, edge), 0);
                assert_eq!(bitmap_of(&spans, n, exact, edge), 0);
            }
        }
    }
}

/// Places that are too short, and a list with half a pair at its end, are refused and not read past their ends.
#[test]
fn places_cut_short() {
    let mut random = Random::new("spans fences, cut short");
    for density in DENSITIES {
        for n in [1usize, 8, 9, 64, 65, 127, 16_384] {
            let exact = n.div_ceil(8);
            let bitmap = bitmap(density, exact, &mut random);
            let mut spans = list(density, n, &mut random);
            for edge in [Edge::End, Edge::Start] {
                assert_eq!(spans_of(&bitmap[1..], n, n + 1, edge), 5);
                assert_eq!(bitmap_of(&spans, n, exact - 1, edge), 4);
            }
            spans.push(n as u32);
            assert_eq!(bitmap_of(&spans, n, exact, Edge::End), 5);
            let room = random.below(4);
            spans_of(&bitmap, n, room, Edge::End);
        }
    }
}
