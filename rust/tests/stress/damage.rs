//! What may go wrong with a page or an argument on its way.

use crate::layouts::pages::LARGE_COUNTS;
use crate::reader::Unit;
use crate::support::random::Random;

/// A count of entries, seldom a large one.
pub fn any_count(random: &mut Random) -> usize {
    match random.below(200) {
        0 => random.pick(&LARGE_COUNTS),
        1..10 => random.below(2000),
        10..100 => random.below(200),
        _ => random.below(40),
    }
}

/// A number, now and then one off.
pub fn about(number: usize, random: &mut Random) -> usize {
    match random.below(50) {
        0 => number + 1,
        1 => number.saturating_sub(1),
        _ => number,
    }
}

/// So much room, now and then one too little, or some too much.
pub fn room(exact: usize, random: &mut Random) -> usize {
    match random.below(50) {
        0 => exact.saturating_sub(1),
        1..25 => exact + random.below(10),
        _ => exact,
    }
}

/// An operator, seldom the first that is none.
pub fn any_operator(random: &mut Random) -> u32 {
    match random.below(50) {
        0 => 8,
        _ => random.below(8) as u32,
    }
}

/// A place of a list, often near its front, where headers stand.
fn place(len: usize, random: &mut Random) -> usize {
    let among = random.pick(&[6, len, len]);
    random.below(among.clamp(1, len.max(1)))
}

/// Anything, most of it small, so that runs and blocks are short and some get far.
fn any_units<U: Unit>(random: &mut Random) -> Vec<U> {
    let len = random.below(60);
    let mask = random.pick(&[0x03, 0x1F, 0x83, u64::MAX]);
    (0..len).map(|_| U::of(random.bits() & mask)).collect()
}

/// A page after one accident, or two; `other` is another page of its layout.
pub fn damaged<U: Unit>(page: &[U], other: &[U], random: &mut Random) -> Vec<U> {
    let once = after_an_accident(page.to_vec(), other, random);
    match random.once_in(3) {
        true => after_an_accident(once, other, random),
        false => once,
    }
}

fn after_an_accident<U: Unit>(mut page: Vec<U>, other: &[U], random: &mut Random) -> Vec<U> {
    let at = place(page.len(), random);
    match random.below(16) {
        0..3 => page.truncate(random.below(page.len() + 1)),
        3 => page = any_units(random),
        4..6 => page.splice(at..at, any_units(random)).for_each(drop),
        6 => page.splice(at.., other.iter().copied()).for_each(drop),
        7..9 => with_a_part(&mut page, other, random),
        // All others change a unit that is there.
        _ if page.is_empty() => page = any_units(random),
        9..11 => drop(page.remove(at)),
        11..14 => page[at] = U::of(page[at].number() ^ 1 << random.below(U::BITS)),
        14 => page[at] = U::of(page[at].number().wrapping_add(1)),
        _ => page[at] = U::of(page[at].number().wrapping_sub(1)),
    }
    page
}

/// Puts a stretch of another page in the place of the page's own.
fn with_a_part<U: Unit>(page: &mut [U], other: &[U], random: &mut Random) {
    let from = place(other.len(), random);
    let to = place(page.len(), random);
    let len = random.below(20);
    for (unit, &another) in page[to..].iter_mut().zip(&other[from..]).take(len) {
        *unit = another;
    }
}
