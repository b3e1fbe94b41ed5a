//! Run streams: runs laid end to end, each a header and its body.

use super::bare::Bare;
use super::calls::Rules;
use super::horizontal::Horizontal;
use super::numbers::{byte, number, shortest};

pub struct Runs;

/// What a run says of its entries.
#[derive(Clone, Debug, PartialEq)]
pub enum Body {
    /// How many equal entries, and which.
    Repeated(usize, u32),
    /// How many groups of 8 entries, and where in the page they stand.
    Packed(usize, std::ops::Range<usize>),
}

/// Low byte first, in ceil(w/8) bytes, and below 2^w.
fn repeated_value(page: &[u8], width: u32, mut at: usize) -> Result<(u32, usize), u32> {
    let mut value = 0;
    for k in 0..width.div_ceil(8) {
        let (b, next) = byte(page, at)?;
        value += u64::from(b) << (8 * k);
        at = next;
    }
    if value >= 1u64 << width {
        return Err(8);
    }
    Ok((value as u32, at))
}

/// The run at a place where `left` entries are not yet covered, and the next place. Reading order: header
/// (5 or 9), 10, 11, body (5), value (8).
fn run_at(page: &[u8], width: u32, left: usize, at: usize) -> Result<(Body, usize), u32> {
    let (h, at) = number(page, at)?;
    if h / 2 == 0 {
        return Err(10);
    }
    if h % 2 == 0 {
        let count = (h / 2) as usize;
        if count > left {
            return Err(11);
        }
        let (value, next) = repeated_value(page, width, at)?;
        return Ok((Body::Repeated(count, value), next));
    }
    let groups = ((h - 1) / 2) as usize;
    if groups * 8 > left + 7 {
        return Err(11);
    }
    let next = at + groups * width as usize;
    if next > page.len() {
        return Err(5);
    }
    Ok((Body::Packed(groups, at..next), next))
}

/// A repeated run behind its header.
pub fn repeated_run(header: &[u8], value: u32, width: u32) -> Vec<u8> {
    let mut run = header.to_vec();
    run.extend((0..width.div_ceil(8)).map(|k| (u64::from(value) >> (8 * k)) as u8));
    run
}

/// A packed run behind its header: whole groups of 8 entries.
pub fn packed_run(header: &[u8], entries: &[u32], width: u32) -> Vec<u8> {
    let mut run = header.to_vec();
    run.extend(Horizontal::page_of(entries, width));
    run
}

impl Rules for Runs {
    type Unit = u8;

    /// A run starts only while fewer than n entries are covered; the stream ends with the run that reaches n,
    /// and what is left over is 6. Entries past n are of no interest.
    fn read(page: &[u8], width: u32, n: usize) -> Result<Vec<u32>, u32> {
        let mut entries = Vec::new();
        let mut at = 0;
        while entries.len() < n {
            let (body, next) = run_at(page, width, n - entries.len(), at)?;
            match body {
                Body::Repeated(count, value) => entries.extend(vec![value; count]),
                Body::Packed(groups, part) => {
                    let part = &page[part];
                    entries.extend((0..groups * 8).map(|i| Horizontal::entry(part, width, i)));
                }
            }
            at = next;
        }
        if at < page.len() {
            return Err(6);
        }
        entries.truncate(n);
        Ok(entries)
    }

    /// At entry p let r be the longest stretch of equal entries from p. If r is 8 or more, write one repeated
    /// run of r. Otherwise put the next 8 entries (fewer at the end, filled with 0) as a group into the open
    /// packed run, which closes at a repeated run, at the end, or at 63 groups.
    fn page_of(entries: &[u32], width: u32) -> Vec<u8> {
        let mut page = Vec::new();
        let mut open: Vec<u32> = Vec::new();
        let mut p = 0;
        while p < entries.len() {
            let r = entries[p..]
                .iter()
                .take_while(|&&e| e == entries[p])
                .count();
            if r >= 8 {
                close(&mut open, width, &mut page);
                page.extend(repeated_run(&shortest(2 * r as u64), entries[p], width));
                p += r;
            } else {
                open.extend((p..p + 8).map(|i| entries.get(i).copied().unwrap_or(0)));
                p += 8;
                if open.len() == 63 * 8 {
                    close(&mut open, width, &mut page);
                }
            }
        }
        close(&mut open, width, &mut page);
        page
    }
}

/// Writes the open packed run, if there is one.
fn close(open: &mut Vec<u32>, width: u32, page: &mut Vec<u8>) {
    if !open.is_empty() {
        let groups = open.len() as u64 / 8;
        page.extend(packed_run(&shortest(2 * groups + 1), open, width));
        open.clear();
    }
}

/// One run asked for by itself.
pub struct Next<'a> {
    pub page: &'a [u8],
    pub width: u32,
    pub n: usize,
    pub at: usize,
    pub covered: usize,
}

/// Refuses with 1, 2, then 5 for a place past the page's end, then 11 if n or more are covered, then as in a
/// stream, but never with 6.
pub fn next(call: &Next) -> Result<(Body, usize), u32> {
    let Next { page, width, n, .. } = *call;
    if width > 32 {
        return Err(1);
    }
    if n > 16_384 {
        return Err(2);
    }
    if call.at > page.len() {
        return Err(5);
    }
    if call.covered >= n {
        return Err(11);
    }
    run_at(page, width, n - call.covered, call.at)
}
