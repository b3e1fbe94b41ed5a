//! What all ways share: a stream's runs taken from its front one after another, and a repeated run written.

use crate::writer::Writer;

/// A run's entries: so many of one value, or groups of eight at the front of what the page has from them on.
pub enum Run<'a> {
    Repeated(usize, u32),
    Packed(usize, &'a [u8]),
}

/// Takes the next run from the front of the page; none where the page does not have it, or `left` entries are too
/// few for it.
pub fn next<'a>(page: &mut &'a [u8], width: u32, left: usize) -> Option<Run<'a>> {
    let h = number(page)?;
    let length = (h / 2) as usize;
    if length == 0 {
        return None;
    }
    if h % 2 == 0 {
        let bytes = take(page, width.div_ceil(8) as usize)?;
        let value = bytes.iter().rev().fold(0, |v, &b| v << 8 | u64::from(b));
        let good = length <= left && value >> width == 0;
        good.then_some(Run::Repeated(length, value as u32))
    } else {
        let good = length <= left.div_ceil(8);
        let from_body = *page;
        take(page, if good { length * width as usize } else { 0 })?;
        good.then_some(Run::Packed(length, from_body))
    }
}

/// The next bytes of a page.
pub fn take<'a>(page: &mut &'a [u8], len: usize) -> Option<&'a [u8]> {
    let (front, rest) = page.split_at_checked(len)?;
    *page = rest;
    Some(front)
}

/// A variable-length number of at most five bytes and 32 bits.
pub fn number(page: &mut &[u8]) -> Option<u64> {
    let mut number = 0;
    for k in 0..5 {
        let byte = take(page, 1)?[0];
        number |= u64::from(byte & 0x7F) << (7 * k);
        if byte < 0x80 {
            return (number >> 32 == 0).then_some(number);
        }
    }
    None
}

/// Writes a repeated run.
pub fn put_repeated(length: usize, value: u32, width: u32, writer: &mut Writer) {
    writer.number(2 * length);
    writer.bytes(&value.to_le_bytes()[..width.div_ceil(8) as usize]);
}
