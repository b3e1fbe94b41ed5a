//! What all ways share: a page's miniblocks one after another, and blocks written.

use crate::runs::page::{number, take};
use crate::writer::Writer;

/// A miniblock's entries: so many numbers of a width above the smallest delta, and what the page has from them on.
pub struct Mini<'a> {
    pub smallest: i32,
    pub width: usize,
    pub body: &'a [u8],
    pub count: usize,
    pub from_body: &'a [u8],
}

/// A number of a page that is zigzag.
fn signed(page: &mut &[u8]) -> Option<i32> {
    let number = number(page)? as u32;
    Some((number >> 1) as i32 ^ -((number & 1) as i32))
}

/// The first of n entries, and the blocks after it.
pub struct Blocks<'a> {
    pub first: i32,
    page: &'a [u8],
    size: usize,
    minis: usize,
    left: usize,
}

impl<'a> Blocks<'a> {
    /// Reads the header.
    pub fn of(mut page: &'a [u8], n: usize) -> Option<Blocks<'a>> {
        let (size, minis) = (number(&mut page)? as usize, number(&mut page)? as usize);
        let (count, first) = (number(&mut page)? as usize, signed(&mut page)?);
        let good = size % 128 == 0
            && (128..=16_384).contains(&size)
            && minis > 0
            && size % (32 * minis) == 0
            && count == n;
        good.then_some(Blocks {
            first,
            page,
            size,
            minis,
            left: n.saturating_sub(1),
        })
    }

    /// Visits all miniblocks; none if the page does not have them, or has more.
    #[inline(always)]
    pub fn visit(mut self, mut to: impl FnMut(Mini)) -> Option<()> {
        let mini = self.size / self.minis;
        while self.left > 0 {
            let entries = self.left.min(self.size);
            let smallest = signed(&mut self.page)?;
            let widths = take(&mut self.page, self.minis)?;
            let needed = &widths[..entries.div_ceil(mini)];
            if needed.iter().any(|&width| width > 32) {
                return None;
            }
            for (m, &width) in needed.iter().enumerate() {
                let width = usize::from(width);
                let from_body = self.page;
                let body = take(&mut self.page, mini / 8 * width)?;
                to(Mini {
                    smallest,
                    width,
                    body,
                    count: mini.min(entries - m * mini),
                    from_body,
                });
            }
            self.left -= entries;
        }
        self.page.is_empty().then_some(())
    }
}

pub fn zigzag(number: i32) -> usize {
    (number.wrapping_shl(1) ^ number >> 31) as u32 as usize
}

/// The header of a page of blocks of 128 in 4 miniblocks.
pub fn put_header(entries: &[i32], writer: &mut Writer) {
    let first = entries.first().copied().unwrap_or(0);
    for number in [128, 4, entries.len(), zigzag(first)] {
        writer.number(number);
    }
}
