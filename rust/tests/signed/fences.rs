//! Columns and outputs that end or begin where memory does.

use super::layout::{page, Place, Signed};
use crate::raw::Answer;
use crate::support::fenced::{Edge, Fenced};
use crate::support::random::Random;

/// A column with each of its inputs at the same edge of memory of its own, which is kept beside them.
fn lay<C: Signed>(column: &C, edge: Edge) -> (Vec<Place>, Vec<Fenced>) {
    let laid = column.inputs().into_iter().map(|input| {
        let mut fenced = Fenced::new();
        let place = fenced.lay(edge, input).cast_const();
        ((place, input.len()), fenced)
    });
    laid.unzip()
}

/// Scans and unpacks a column with all places at the same edge: their answers.
fn call_both<C: Signed>(column: &C, n: usize, edge: Edge) -> [Answer; 2] {
    let (inputs, _fenced) = lay(column, edge);
    let mut output = Fenced::new();
    let room = n.div_ceil(8);
    let bitmap = output.lay(edge, &vec![0; room]);
    // SAFETY: the places are valid for their lengths, aligned, and stand apart.
    let scanned = unsafe { C::scan(&inputs, n, 5, i64::MIN, 0, bitmap, room) };
    let entries = output.lay(edge, &vec![0; n]);
    // SAFETY: as above.
    let unpacked = unsafe { C::unpack(&inputs, n, entries, n) };
    [scanned, unpacked]
}

pub fn nothing_is_read_outside_the_places<C: Signed>() {
    let mut random = Random::new(&format!("{} fences", C::NAME));
    for width in 0..=32 {
        for &n in C::COUNTS.iter().chain(&[16_384]) {
            let column = C::any(width, n, &mut random);
            for edge in [Edge::End, Edge::Start] {
                let accepted = Answer {
                    code: 0,
                    number: n as u32,
                };
                let answers = call_both(&column, n, edge);
                assert_eq!(answers, [accepted; 2], "width {width}, n {n}");
            }
        }
    }
}

/// A page cut short is refused, and not read past its end either.
pub fn a_page_cut_short<C: Signed>() {
    let mut random = Random::new(&format!("{} fences, cut short", C::NAME));
    for width in 0..=32 {
        for n in [0, 1, 2, 34, 130] {
            let column = C::any(width, n, &mut random);
            let page = page(&column);
            for len in (0..page.len()).rev().take(200) {
                let short = column.with_page(&page[..len]);
                let refused = Answer { code: 5, number: 0 };
                let answers = call_both(&short, n, Edge::End);
                assert_eq!(answers, [refused; 2], "n {n}, length {len}");
            }
        }
    }
}
