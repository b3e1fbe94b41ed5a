//! Delta pages: a header, and then blocks of deltas in miniblocks.

use super::bare::Bare;
use super::calls::{packed, Rules};
use super::horizontal::Horizontal;
use super::numbers::{byte, number, shortest, wrapped, zigzag, zigzag_of};
use super::signed::Column;
use super::{refused, Outcome};

/// A page.
#[derive(Clone)]
pub struct Delta(pub Vec<u8>);

/// What a good header says.
struct Header {
    block_size: usize,
    miniblocks: usize,
    first: i64,
}

/// Block size, miniblocks per block, count, first value. All four are read, then 12, then 13. Gives the place
/// after it too.
fn header(page: &[u8], n: usize) -> Result<(Header, usize), u32> {
    let (block_size, at) = number(page, 0)?;
    let (miniblocks, at) = number(page, at)?;
    let (count, at) = number(page, at)?;
    let (first, at) = zigzag(page, at)?;
    if !well_shaped(block_size, miniblocks) {
        return Err(12);
    }
    if count != n as u64 {
        return Err(13);
    }
    let header = Header {
        block_size: block_size as usize,
        miniblocks: miniblocks as usize,
        first,
    };
    Ok((header, at))
}

/// Block size is a multiple of 128, from 128 to 16,384; the miniblock count is at least 1 and divides it; the
/// quotient is a multiple of 32.
fn well_shaped(block_size: u64, miniblocks: u64) -> bool {
    block_size % 128 == 0
        && (128..=16_384).contains(&block_size)
        && miniblocks >= 1
        && block_size % miniblocks == 0
        && block_size / miniblocks % 32 == 0
}

/// The width bytes of a block, judged first to last (5 if missing, else 1 for a needed one above 32): the
/// widths of the needed miniblocks. One is needed if it holds a delta of an entry below n, and `left` deltas
/// are to come.
fn widths(
    page: &[u8],
    header: &Header,
    left: usize,
    mut at: usize,
) -> Result<(Vec<u32>, usize), u32> {
    let mut widths = Vec::new();
    for m in 0..header.miniblocks {
        let (width, next) = byte(page, at)?;
        if m * (header.block_size / header.miniblocks) < left {
            if width > 32 {
                return Err(1);
            }
            widths.push(width.into());
        }
        at = next;
    }
    Ok((widths, at))
}

/// A block: smallest delta, one width byte per miniblock, then the bodies, packed horizontally, each full even if
/// few of its entries are needed. Gives its deltas, also those that fill it, and the next place.
fn block(page: &[u8], header: &Header, left: usize, at: usize) -> Result<(Vec<i64>, usize), u32> {
    let (smallest, at) = zigzag(page, at)?;
    let (widths, mut at) = widths(page, header, left, at)?;
    let mut deltas = Vec::new();
    for width in widths {
        let entries = header.block_size / header.miniblocks;
        let next = at + Horizontal::page_len(width, entries);
        let body = page.get(at..next).ok_or(5u32)?;
        let packed = (0..entries).map(|i| Horizontal::entry(body, width, i));
        deltas.extend(packed.map(|number| smallest + i64::from(number)));
        at = next;
    }
    Ok((deltas, at))
}

impl Column for Delta {
    /// The first fault in reading order. Entry 0 is the first value; each later entry is the one before plus smallest
    /// delta plus packed number. With n = 0 the first value is read and not used.
    fn read(&self, n: usize) -> Result<Vec<i32>, u32> {
        let Delta(page) = self;
        let (header, mut at) = header(page, n)?;
        let mut last = wrapped(header.first);
        let mut entries = vec![last];
        while entries.len() < n {
            let left = n - entries.len();
            let (deltas, next) = block(page, &header, left, at)?;
            for delta in deltas.into_iter().take(left) {
                last = wrapped(i64::from(last) + delta);
                entries.push(last);
            }
            at = next;
        }
        if at < page.len() {
            return Err(6);
        }
        entries.truncate(n);
        Ok(entries)
    }
}

/// The wrapped deltas of the entries from the second on.
fn deltas(entries: &[i32]) -> Vec<i64> {
    let pairs = entries.windows(2);
    let wrapped = pairs.map(|pair| wrapped(i64::from(pair[1]) - i64::from(pair[0])));
    wrapped.map(i64::from).collect()
}

/// The signed least of a block's deltas, and how far each is above it.
pub fn above_least(block: &[i64]) -> (i64, Vec<u64>) {
    let least = block.iter().copied().min().expect("a block has a delta");
    (
        least,
        block.iter().map(|delta| (delta - least) as u64).collect(),
    )
}

/// The least width of some numbers.
pub fn width_of(numbers: &[u64]) -> u32 {
    let fits = |&width: &u32| numbers.iter().all(|&number| number < 1 << width);
    (0..64).find(fits).expect("no number is beyond 33 bits")
}

/// A block of at most 128 deltas: the least, four width bytes, and the bodies of the miniblocks that have a
/// delta, filled with 0.
fn block_of(deltas: &[i64]) -> Vec<u8> {
    let (least, above) = above_least(deltas);
    let mut block = shortest(zigzag_of(least));
    let mut bodies = Vec::new();
    for m in 0..4 {
        let numbers = above.iter().skip(32 * m).take(32).copied();
        let numbers: Vec<u64> = numbers.collect();
        let width = width_of(&numbers);
        block.push(width as u8);
        if !numbers.is_empty() {
            let mut filled: Vec<u32> = numbers.into_iter().map(|number| number as u32).collect();
            filled.resize(32, 0);
            bodies.extend(Horizontal::page_of(&filled, width));
        }
    }
    block.extend(bodies);
    block
}

/// Block size 128, 4 miniblocks, shortest numbers; first value 0 for no entries.
pub fn page_of(entries: &[i32]) -> Vec<u8> {
    let first = entries.first().copied().unwrap_or(0);
    let mut page = Vec::new();
    for number in [128, 4, entries.len() as u64, zigzag_of(first.into())] {
        page.extend(shortest(number));
    }
    for block in deltas(entries).chunks(128) {
        page.extend(block_of(block));
    }
    page
}

pub struct Pack<'a> {
    pub entries: &'a [i32],
    pub page: &'a [u8],
}

/// The first code of 2, 17, 4 that holds, else the page.
pub fn pack(call: &Pack) -> Outcome<u8> {
    if call.entries.len() > 16_384 {
        return refused(2, call.page);
    }
    let too_wide = |block: &[i64]| width_of(&above_least(block).1) > 32;
    if deltas(call.entries).chunks(128).any(too_wide) {
        return refused(17, call.page);
    }
    packed(&page_of(call.entries), call.page)
}
