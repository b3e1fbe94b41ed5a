//! The best Rust that we know for the job, by constants for each width: no list of entries. A repeated run is compared
//! once, a packed run 64 entries at once in lanes, and the bits go where the run begins. The entries scanned are a
//! multiple of 64.

use super::page::{next, put_repeated, Run};
use super::parquet_way;
use crate::bits::Bits;
use crate::column::of_each_width;
use crate::horizontal::best::{pack8, unpack8};
use crate::horizontal::lanes::Band;
use crate::writer::Writer;

/// Gives a function the bits of some entries from a place on, in words of at most 64, and how many they are.
///
/// # Safety
///
/// All bytes of their groups are there, and 8 more.
#[inline(always)]
unsafe fn each_word<const W: usize>(
    band: Band<W>,
    page: *const u8,
    entries: usize,
    mut to: impl FnMut(u64, usize),
) {
    // SAFETY: the caller says so.
    unsafe {
        for i in 0..entries / 64 {
            to(band.all(page.add(8 * W * i)), 64);
        }
        let left = entries % 64;
        if left > 0 {
            let word = band.some(page.add(entries / 64 * 8 * W), left.div_ceil(8));
            to(word & u64::MAX >> (64 - left), left);
        }
    }
}

/// The same for the entries of a packed run, in the page from its body on.
#[inline(always)]
fn each_word_of_run<const W: usize>(
    band: Band<W>,
    from_body: &[u8],
    entries: usize,
    mut to: impl FnMut(u64, usize),
) {
    let groups = entries.div_ceil(8);
    let far = groups.min(from_body.len().saturating_sub(8) / W);
    let some = entries.min(8 * far);
    // SAFETY: so many groups have 8 bytes after them.
    unsafe { each_word(band, from_body.as_ptr(), some, &mut to) };
    if far < groups {
        let mut end = [0; 8 * 32 + 8];
        let rest = &from_body[far * W..groups * W];
        end[..rest.len()].copy_from_slice(rest);
        // SAFETY: they are at most 8 groups, and the copy has 8 bytes more.
        unsafe { each_word(band, end.as_ptr(), entries - some, &mut to) };
    }
}

fn select<const W: usize>(
    mut page: &[u8],
    (low, high): (u32, u32),
    greatest: u32,
    bitmap: &mut [u8],
) -> Option<usize> {
    let mut left = 8 * bitmap.len();
    let band = Band::<W>::of(low, high);
    let all_may_be = greatest >= u32::MAX >> (32 - W);
    let mut bits = Bits::to(bitmap);
    while left > 0 {
        let (taken, good) = match next(&mut page, W as u32, left)? {
            Run::Repeated(length, value) => {
                bits.push_same(band.has(value), length);
                (length, value <= greatest)
            }
            Run::Packed(groups, from_body) => {
                let some = left.min(8 * groups);
                each_word_of_run(band, from_body, some, |word, count| bits.push(word, count));
                (
                    some,
                    all_may_be || none_above::<W>(greatest, from_body, some),
                )
            }
        };
        left -= taken;
        if !good {
            return None;
        }
    }
    page.is_empty().then_some(bits.count)
}

/// Whether the entries of a packed run are at most the greatest.
fn none_above<const W: usize>(greatest: u32, from_body: &[u8], entries: usize) -> bool {
    let mut good = true;
    each_word_of_run(
        Band::<W>::of(0, greatest),
        from_body,
        entries,
        |word, count| {
            good &= word == u64::MAX >> (64 - count);
        },
    );
    good
}

/// Selects the entries from low to high, and counts them; none if one is above the greatest. The width is 1 to 32.
pub fn scan(
    page: &[u8],
    width: u32,
    band: (u32, u32),
    greatest: u32,
    bitmap: &mut [u8],
) -> Option<usize> {
    type Select = fn(&[u8], (u32, u32), u32, &mut [u8]) -> Option<usize>;
    const SELECTS: [Select; 32] = of_each_width!(select as Select);
    SELECTS[width as usize - 1](page, band, greatest, bitmap)
}

fn unpack_all<const W: usize>(mut page: &[u8], entries: &mut [u32]) -> Option<usize> {
    let mut at = 0;
    while at < entries.len() {
        let rest = &mut entries[at..];
        at += match next(&mut page, W as u32, rest.len())? {
            Run::Repeated(length, value) => {
                rest[..length].fill(value);
                length
            }
            Run::Packed(groups, from_body) => {
                let some = rest.len().min(8 * groups);
                unpack_run::<W>(from_body, &mut rest[..some]);
                some
            }
        };
    }
    page.is_empty().then_some(at)
}

/// The entries of a packed run, in the page from its body on.
#[inline(always)]
fn unpack_run<const W: usize>(from_body: &[u8], entries: &mut [u32]) {
    let body = entries.len().div_ceil(8) * W;
    if from_body.len() < body + 8 || !entries.len().is_multiple_of(8) {
        return parquet_way::unpack_groups::<W>(&from_body[..body], entries);
    }
    for (g, eight) in entries.chunks_exact_mut(8).enumerate() {
        // SAFETY: 8 bytes are there after the body.
        eight.copy_from_slice(&unsafe { unpack8::<W>(from_body.as_ptr().add(g * W)) });
    }
}

/// Reads as many entries as there are places, and gives their number. The width is 1 to 32.
pub fn unpack(page: &[u8], width: u32, entries: &mut [u32]) -> Option<usize> {
    type Unpack = fn(&[u8], &mut [u32]) -> Option<usize>;
    const UNPACKS: [Unpack; 32] = of_each_width!(unpack_all as Unpack);
    UNPACKS[width as usize - 1](page, entries)
}

/// Whether eight entries are equal, without a branch for each.
#[inline(always)]
fn equal(eight: &[u32; 8]) -> bool {
    eight.iter().fold(0, |all, x| all | (x ^ eight[0])) == 0
}

/// Writes a packed run, up to a group of equal entries, the end or 63 groups. Gives the entries after it.
fn put_packed<'a, const W: usize>(mut rest: &'a [u32], writer: &mut Writer) -> &'a [u32] {
    let header = writer.at;
    writer.bytes(&[0]);
    let mut groups = 0;
    while groups < 63 && !rest.is_empty() {
        let mut last = [0; 8];
        let (eight, later) = match rest.split_first_chunk() {
            Some((eight, _)) if equal(eight) => break,
            Some(whole) => whole,
            None => {
                last[..rest.len()].copy_from_slice(rest);
                (&last, &[][..])
            }
        };
        writer.bytes(&pack8::<W>(eight)[..W]);
        rest = later;
        groups += 1;
    }
    writer.page[header] = 2 * groups + 1;
    rest
}

fn pack_all<const W: usize>(entries: &[u32], page: &mut [u8]) -> usize {
    let mut writer = Writer::to(page);
    let mut rest = entries;
    while let Some(&first) = rest.first() {
        rest = match rest.first_chunk() {
            Some(eight) if equal(eight) => {
                let (eights, _) = rest.as_chunks::<8>();
                let same = |eight: &&[u32; 8]| eight[0] == first && equal(eight);
                let whole = 8 * eights.iter().take_while(same).count();
                let more = rest[whole..].iter().take_while(|&&entry| entry == first);
                let (run, later) = rest.split_at(whole + more.count());
                put_repeated(run.len(), first, W as u32, &mut writer);
                later
            }
            _ => put_packed::<W>(rest, &mut writer),
        };
    }
    writer.at
}

/// Packs the entries, and gives the length written if all are below 2^width. The width is 1 to 32.
pub fn pack(entries: &[u32], width: u32, page: &mut [u8]) -> Option<usize> {
    type Pack = fn(&[u32], &mut [u8]) -> usize;
    const PACKS: [Pack; 32] = of_each_width!(pack_all as Pack);
    let seen = entries.iter().fold(0, |seen, entry| seen | entry);
    (u64::from(seen) >> width == 0).then(|| PACKS[width as usize - 1](entries, page))
}
