//! Dictionary columns: 4-byte signed numbers, low byte first, and an index page of one width byte and a run stream.

use super::calls::Rules;
use super::numbers::{byte, wrapped};
use super::runs::Runs;
use super::signed::Column;

#[derive(Clone)]
pub struct Dictionary {
    pub dict: Vec<u8>,
    pub page: Vec<u8>,
}

/// The values of a dictionary. 14: length no multiple of 4, over 65,536 bytes, or values not strictly ascending.
fn values(dict: &[u8]) -> Result<Vec<i32>, u32> {
    if dict.len() % 4 != 0 || dict.len() > 65_536 {
        return Err(14);
    }
    let number = |four: &[u8]| {
        let places = four.iter().zip([1, 256, 65_536, 16_777_216]);
        places.map(|(&byte, place)| i64::from(byte) * place).sum()
    };
    let values: Vec<i32> = dict.chunks(4).map(|four| wrapped(number(four))).collect();
    if values.windows(2).any(|pair| pair[0] >= pair[1]) {
        return Err(14);
    }
    Ok(values)
}

/// One width byte (5, 1) and then a run stream.
fn indexes(page: &[u8], n: usize) -> Result<Vec<u32>, u32> {
    let (width, at) = byte(page, 0)?;
    if width > 32 {
        return Err(1);
    }
    Runs::read(&page[at..], width.into(), n)
}

impl Column for Dictionary {
    /// 14, then the index page in reading order, then 15 only if that page is otherwise good. Indexes past n are
    /// not among those read.
    fn read(&self, n: usize) -> Result<Vec<i32>, u32> {
        let values = values(&self.dict)?;
        let value = |index: u32| values.get(index as usize).copied().ok_or(15);
        indexes(&self.page, n)?.into_iter().map(value).collect()
    }
}
