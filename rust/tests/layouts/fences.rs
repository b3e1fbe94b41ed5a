//! Pages and lists that end or begin where memory does.

use super::layout::Layout;
use super::pages::{entries, page, Kind, SMALL_COUNTS};
use crate::raw::Answer;
use crate::support::fenced::{Edge, Fenced};
use crate::support::random::Random;

fn accepted(number: usize) -> Answer {
    Answer {
        code: 0,
        number: number as u32,
    }
}

/// Scans, unpacks and packs one page with all places at the same edge.
fn call_all<L: Layout>(width: u32, n: usize, page: &[L::Unit], list: &[u32], edge: Edge) {
    let [mut input, mut output] = [Fenced::new(), Fenced::new()];
    let place = input.lay(edge, page);
    let room = n.div_ceil(8);
    let bitmap = output.lay(edge, &vec![0; room]);
    // SAFETY: the places are valid for their lengths, aligned, and stand apart.
    let scanned = unsafe { (L::SCAN)(place, page.len(), width, n, 5, 0, 0, bitmap, room) };
    assert_eq!(scanned, accepted(n), "scan: width {width}, n {n}");

    let unpacked_to = output.lay(edge, list);
    // SAFETY: as above.
    let unpacked = unsafe { (L::UNPACK)(place, page.len(), width, n, unpacked_to, n) };
    assert_eq!(unpacked, accepted(n), "unpack: width {width}, n {n}");

    let entries = input.lay(edge, list);
    let room = L::page_of(list, width);
    let packed_to = output.lay(edge, &room);
    // SAFETY: as above.
    let packed = unsafe { (L::PACK)(entries, n, width, packed_to, room.len()) };
    assert_eq!(packed, accepted(room.len()), "pack: width {width}, n {n}");
}

pub fn nothing_is_read_outside_the_places<L: Layout>() {
    let mut random = Random::new(&format!("{} fences", L::NAME));
    for width in 0..=32 {
        for n in SMALL_COUNTS.into_iter().chain([2, 3, 4, 5, 6, 16_384]) {
            let page = page::<L>(Kind::Random, width, n, &mut random);
            let list = entries(Kind::Random, width, n, &mut random);
            call_all::<L>(width, n, &page, &list, Edge::End);
            call_all::<L>(width, n, &page, &list, Edge::Start);
        }
    }
}

/// A page cut short is refused, and not read past its end either.
pub fn a_page_cut_short<L: Layout>() {
    let mut random = Random::new(&format!("{} fences, cut short", L::NAME));
    let [mut input, mut output] = [Fenced::new(), Fenced::new()];
    for width in 1..=32 {
        for n in [1, 8, 65, 127, 16_384] {
            let page = page::<L>(Kind::Random, width, n, &mut random);
            let short = &page[..page.len() - 1];
            let place = input.lay(Edge::End, short);
            let room = n.div_ceil(8);
            let bitmap = output.lay(Edge::End, &vec![0; room]);
            // SAFETY: both places are valid for their lengths, aligned, and stand apart.
            let scanned = unsafe { (L::SCAN)(place, short.len(), width, n, 5, 0, 0, bitmap, room) };
            let refused = Answer { code: 5, number: 0 };
            assert_eq!(scanned, refused, "width {width}, n {n}");
        }
    }
}
