//! The best Rust that we know for the job: the band's place among the values is found once, and the indexes are scanned
//! as a run stream; a repeated run is looked up once. The entries scanned are a multiple of 64.

use super::page::stream;
use crate::column::of_each_width;
use crate::horizontal::best::unpack8;
use crate::runs::best::scan as scan_indexes;
use crate::runs::page::{next, Run};
use crate::runs::parquet_way::unpack_groups;

/// The values of a dictionary as they stand there, if they ascend: no branch for each, and no list.
fn values(dictionary: &[u8]) -> Option<&[[u8; 4]]> {
    let (values, rest) = dictionary.as_chunks();
    let later = values.get(1..).unwrap_or(&[]);
    let ascend = |(&a, &b): (&[u8; 4], &[u8; 4])| i32::from_le_bytes(a) < i32::from_le_bytes(b);
    let good = values
        .iter()
        .zip(later)
        .fold(true, |good, pair| good & ascend(pair));
    (rest.is_empty() && dictionary.len() <= 65_536 && good).then_some(values)
}

/// Selects the entries from low to high, and counts them.
pub fn scan(
    dictionary: &[u8],
    page: &[u8],
    low: i32,
    high: i32,
    bitmap: &mut [u8],
) -> Option<usize> {
    let values = values(dictionary)?;
    let (width, stream) = stream(page)?;
    let first = values.partition_point(|&value| i32::from_le_bytes(value) < low) as u32;
    let end = values.partition_point(|&value| i32::from_le_bytes(value) <= high) as u32;
    // An empty band is put above all indexes.
    let band = if first < end {
        (first, end - 1)
    } else {
        (u32::MAX, u32::MAX)
    };
    let greatest = (values.len() as u32).checked_sub(1)?;
    scan_indexes(stream, width, band, greatest, bitmap)
}

/// Looks up some indexes, each for a place.
#[inline(always)]
fn look_up(values: &[[u8; 4]], indexes: &[u32], places: &mut [i32]) -> Option<()> {
    for (place, &index) in places.iter_mut().zip(indexes) {
        *place = i32::from_le_bytes(*values.get(index as usize)?);
    }
    Some(())
}

/// The same for the entries of a packed run, in the page from its body on.
#[inline(always)]
fn look_up_run<const W: usize>(
    values: &[[u8; 4]],
    from_body: &[u8],
    entries: &mut [i32],
) -> Option<()> {
    let body = entries.len().div_ceil(8) * W;
    if from_body.len() < body + 8 || !entries.len().is_multiple_of(8) {
        let mut indexes = vec![0; entries.len()];
        unpack_groups::<W>(&from_body[..body], &mut indexes);
        return look_up(values, &indexes, entries);
    }
    for (g, places) in entries.chunks_exact_mut(8).enumerate() {
        // SAFETY: 8 bytes are there after the body.
        let indexes = unsafe { unpack8::<W>(from_body.as_ptr().add(g * W)) };
        look_up(values, &indexes, places)?;
    }
    Some(())
}

fn look_up_all<const W: usize>(
    values: &[[u8; 4]],
    mut page: &[u8],
    entries: &mut [i32],
) -> Option<()> {
    let mut rest = entries;
    while !rest.is_empty() {
        match next(&mut page, W as u32, rest.len())? {
            Run::Repeated(length, index) => {
                let (run, later) = rest.split_at_mut(length);
                run.fill(i32::from_le_bytes(*values.get(index as usize)?));
                rest = later;
            }
            Run::Packed(groups, from_body) => {
                let (run, later) = rest.split_at_mut(rest.len().min(8 * groups));
                look_up_run::<W>(values, from_body, run)?;
                rest = later;
            }
        }
    }
    page.is_empty().then_some(())
}

/// Looks up as many entries as there are places, and gives their number.
pub fn unpack(dictionary: &[u8], page: &[u8], entries: &mut [i32]) -> Option<usize> {
    type LookUp = fn(&[[u8; 4]], &[u8], &mut [i32]) -> Option<()>;
    const LOOK_UPS: [LookUp; 32] = of_each_width!(look_up_all as LookUp);
    let values = values(dictionary)?;
    let (width, stream) = stream(page)?;
    LOOK_UPS[width as usize - 1](values, stream, entries)?;
    Some(entries.len())
}
