//! The three calls of a layout of a width, and their codes in order. What its pages hold, each layout says itself.
//! What the calls of all layouts share stands first.

use super::{accepted, refused, satisfies, selection, Outcome, Unit};

/// The first code of 2, 3, 4 that holds, or else what the page says. An unpack has no operator.
pub fn within_limits<T>(
    n: usize,
    op: Option<u32>,
    short: bool,
    page: impl FnOnce() -> Result<T, u32>,
) -> Result<T, u32> {
    if n > 16_384 {
        return Err(2);
    }
    if op.is_some_and(|op| op > 7) {
        return Err(3);
    }
    if short {
        return Err(4);
    }
    page()
}

/// A scan of the entries that were read, or its refusal.
pub fn scanned<E: Into<i128>>(
    read: Result<Vec<E>, u32>,
    holds: impl Fn(i128) -> bool,
    bitmap: &[u8],
) -> Outcome<u8> {
    match read {
        Ok(entries) => {
            let selected = entries.into_iter().map(|x| holds(x.into()));
            selection(&selected.collect::<Vec<bool>>(), bitmap)
        }
        Err(code) => refused(code, bitmap),
    }
}

/// An unpack of the entries that were read, or its refusal.
pub fn unpacked<E: Copy>(read: Result<Vec<E>, u32>, lent: &[E]) -> Outcome<E> {
    match read {
        Ok(entries) => accepted(entries.len(), &entries, lent),
        Err(code) => refused(code, lent),
    }
}

/// A page that is otherwise good: 4 where it does not fit.
pub fn packed<U: Copy>(page: &[U], lent: &[U]) -> Outcome<U> {
    if lent.len() < page.len() {
        return refused(4, lent);
    }
    accepted(page.len(), page, lent)
}

/// What a layout says of its pages.
pub trait Rules {
    /// What its pages are lists of.
    type Unit: Unit;

    /// The n entries of a page, or the code of what is wrong with it. The width and n are within the limits.
    fn read(page: &[Self::Unit], width: u32, n: usize) -> Result<Vec<u32>, u32>;

    /// The page of entries below 2^width.
    fn page_of(entries: &[u32], width: u32) -> Vec<Self::Unit>;
}

/// The first code of 1, 2, 3, 4 that holds, or else what the page says. An unpack has no operator.
fn read<R: Rules>(
    page: &[R::Unit],
    width: u32,
    n: usize,
    op: Option<u32>,
    short: bool,
) -> Result<Vec<u32>, u32> {
    if width > 32 {
        return Err(1);
    }
    within_limits(n, op, short, || R::read(page, width, n))
}

pub struct Scan<'a, U> {
    pub page: &'a [U],
    pub width: u32,
    pub n: usize,
    pub op: u32,
    pub a: i64,
    pub b: i64,
    pub bitmap: &'a [u8],
}

pub fn scan<R: Rules>(call: &Scan<R::Unit>) -> Outcome<u8> {
    let Scan { page, width, n, .. } = *call;
    let short = call.bitmap.len() < n.div_ceil(8);
    let read = read::<R>(page, width, n, Some(call.op), short);
    let holds = |x| satisfies(call.op, x, call.a.into(), call.b.into());
    scanned(read, holds, call.bitmap)
}

pub struct Unpack<'a, U> {
    pub page: &'a [U],
    pub width: u32,
    pub n: usize,
    pub entries: &'a [u32],
}

pub fn unpack<R: Rules>(call: &Unpack<R::Unit>) -> Outcome<u32> {
    let Unpack { page, width, n, .. } = *call;
    let read = read::<R>(page, width, n, None, call.entries.len() < n);
    unpacked(read, call.entries)
}

pub struct Pack<'a, U> {
    pub entries: &'a [u32],
    pub width: u32,
    pub page: &'a [U],
}

/// The first code of 1, 2, 8, 4 that holds, else the page.
pub fn pack<R: Rules>(call: &Pack<R::Unit>) -> Outcome<R::Unit> {
    let Pack { entries, width, .. } = *call;
    if width > 32 {
        return refused(1, call.page);
    }
    if entries.len() > 16_384 {
        return refused(2, call.page);
    }
    if entries.iter().any(|&e| u64::from(e) >= 1u64 << width) {
        return refused(8, call.page);
    }
    packed(&R::page_of(entries, width), call.page)
}
