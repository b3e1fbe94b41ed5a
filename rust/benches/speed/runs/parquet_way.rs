//! As the parquet crate does it: runs are read into a list of entries, and the list is compared. Packed runs are unpacked
//! eight entries at once, with shifts that are constants for each width. Its encoder is given one entry after another.

use super::page::{next, put_repeated, Run};
use crate::column::of_each_width;
use crate::writer::BitWriter;

/// N entries of W bits at once, with constant shifts. ROOM is what they take at width 32, and 8 bytes more.
#[inline(always)]
pub fn at_once<const W: usize, const N: usize, const ROOM: usize>(packed: &[u8]) -> [u32; N] {
    let mut bytes = [0; ROOM];
    bytes[..N / 8 * W].copy_from_slice(packed);
    std::array::from_fn(|i| {
        let window = bytes[i * W / 8..][..8].try_into().expect("eight bytes");
        (u64::from_le_bytes(window) >> (i * W % 8) & ((1 << W) - 1)) as u32
    })
}

/// Eight entries of W bits from W bytes.
#[inline(always)]
fn unpack8<const W: usize>(group: &[u8]) -> [u32; 8] {
    at_once::<W, 8, 40>(group)
}

/// The entries of a body, as many as there are places.
pub fn unpack_groups<const W: usize>(body: &[u8], entries: &mut [u32]) {
    let whole = entries.len() / 8;
    let (eights, last) = entries.split_at_mut(8 * whole);
    for (eight, group) in eights.chunks_exact_mut(8).zip(body.chunks_exact(W)) {
        eight.copy_from_slice(&unpack8::<W>(group));
    }
    if !last.is_empty() {
        let eight = unpack8::<W>(&body[whole * W..]);
        last.copy_from_slice(&eight[..last.len()]);
    }
}

/// Reads as many entries as there are places, and gives their number. The width is 1 to 32.
pub fn unpack(mut page: &[u8], width: u32, entries: &mut [u32]) -> Option<usize> {
    type UnpackGroups = fn(&[u8], &mut [u32]);
    const OF_WIDTH: [UnpackGroups; 32] = of_each_width!(unpack_groups as UnpackGroups);
    let unpack_groups = OF_WIDTH[width as usize - 1];
    let mut at = 0;
    while at < entries.len() {
        let rest = &mut entries[at..];
        at += match next(&mut page, width, rest.len())? {
            Run::Repeated(length, value) => {
                rest[..length].fill(value);
                length
            }
            Run::Packed(groups, from_body) => {
                let some = rest.len().min(8 * groups);
                unpack_groups(&from_body[..groups * width as usize], &mut rest[..some]);
                some
            }
        };
    }
    page.is_empty().then_some(at)
}

/// Selects the entries from low to high, and counts them.
pub fn scan(
    page: &[u8],
    width: u32,
    n: usize,
    low: u32,
    high: u32,
    bitmap: &mut [u8],
) -> Option<usize> {
    let mut entries = vec![0; n];
    unpack(page, width, &mut entries)?;
    Some(select(&entries, low, high, bitmap))
}

/// Selects those of a list from low to high, eight to a byte of the bitmap, and counts them.
pub fn select<T: Copy + PartialOrd>(entries: &[T], low: T, high: T, bitmap: &mut [u8]) -> usize {
    let mut count = 0;
    for (byte, eight) in bitmap.iter_mut().zip(entries.chunks(8)) {
        *byte = 0;
        for (k, &x) in eight.iter().enumerate() {
            *byte |= u8::from((low <= x) & (x <= high)) << k;
        }
        count += byte.count_ones() as usize;
    }
    count
}

/// The encoder: what it has seen since it last wrote.
struct Encoder<'a> {
    bits: BitWriter<'a>,
    width: u32,
    value: u32,
    repeats: usize,
    buffered: [u32; 8],
    held: usize,
    /// Of the packed run that is open, if one is: where its header is to be, and its groups.
    header: usize,
    groups: u8,
}

impl Encoder<'_> {
    #[inline]
    fn put(&mut self, entry: u32) {
        if self.value == entry {
            self.repeats += 1;
            if self.repeats > 8 {
                return;
            }
        } else {
            if self.repeats >= 8 {
                self.close_repeated();
            }
            self.repeats = 1;
            self.value = entry;
        }
        self.buffered[self.held] = entry;
        self.held += 1;
        if self.held == 8 {
            self.flush();
        }
    }

    fn close_repeated(&mut self) {
        put_repeated(self.repeats, self.value, self.width, self.bits.aligned());
        (self.repeats, self.held) = (0, 0);
    }

    fn close_packed(&mut self) {
        self.bits.aligned().page[self.header] = 2 * self.groups + 1;
        self.groups = 0;
    }

    /// Eight entries are buffered: they begin a repeated run, or are a group of the packed run.
    fn flush(&mut self) {
        self.held = 0;
        if self.repeats >= 8 {
            if self.groups > 0 {
                self.close_packed();
            }
            return;
        }
        self.put_group();
        if self.groups == 63 {
            self.close_packed();
        }
        self.repeats = 0;
    }

    fn put_group(&mut self) {
        if self.groups == 0 {
            self.header = self.bits.aligned().at;
            self.bits.aligned().at += 1;
        }
        for entry in self.buffered {
            self.bits.put(entry, self.width);
        }
        self.groups += 1;
    }

    /// Closes what is open; the last group is filled with 0. Gives the length written.
    fn end(mut self) -> usize {
        if self.repeats >= 8 {
            self.close_repeated();
        } else if self.held > 0 {
            self.buffered[self.held..].fill(0);
            self.put_group();
        }
        if self.groups > 0 {
            self.close_packed();
        }
        self.bits.aligned().at
    }
}

/// Packs the entries, and gives the length written if all are below 2^width.
pub fn pack(entries: &[u32], width: u32, page: &mut [u8]) -> Option<usize> {
    let all = entries.iter().fold(0, |all, &entry| all | entry);
    if u64::from(all) >> width != 0 {
        return None;
    }
    let mut encoder = Encoder {
        bits: BitWriter::to(page),
        width,
        value: 0,
        repeats: 0,
        buffered: [0; 8],
        held: 0,
        header: 0,
        groups: 0,
    };
    entries.iter().for_each(|&entry| encoder.put(entry));
    Some(encoder.end())
}
