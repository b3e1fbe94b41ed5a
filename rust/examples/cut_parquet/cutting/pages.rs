//! The pages of a column in one row group.

use crate::parquet::fields::{data_page_header, data_page_header_v2, page_header};
use crate::parquet::format::{DATA_PAGE, DATA_PAGE_V2, DICTIONARY_PAGE};
use crate::parquet::thrift::read::Struct;

/// The rows of a data page, how their entries are encoded, and the bytes of the entries.
pub struct Page {
    pub rows: usize,
    pub encoding: i64,
    pub entries: Vec<u8>,
}

#[derive(Default)]
pub struct Pages {
    pub dictionary: Option<Vec<u8>>,
    pub data: Vec<Page>,
}

const DAMAGED_HEADER: &str = "a header of its pages is damaged";

impl Pages {
    /// The pages of a required column that is not compressed.
    pub fn of(mut chunk: &[u8]) -> Result<Pages, &'static str> {
        let mut pages = Pages::default();
        while !chunk.is_empty() {
            let (header, page, rest) = first_page(chunk).ok_or(DAMAGED_HEADER)?;
            let checksum = header.int(page_header::CRC);
            if checksum.is_some_and(|crc| crc as u32 != crc_32(page)) {
                return Err("a page is damaged: its checksum is not the one in its header");
            }
            pages.add(&header, page).ok_or(DAMAGED_HEADER)?;
            chunk = rest;
        }
        Ok(pages)
    }

    fn add(&mut self, header: &Struct, page: &[u8]) -> Option<()> {
        match header.int(page_header::TYPE)? {
            DICTIONARY_PAGE if self.dictionary.is_some() => return None,
            DICTIONARY_PAGE => self.dictionary = Some(page.to_vec()),
            DATA_PAGE => self.data.push(data_page(header, page)?),
            DATA_PAGE_V2 => self.data.push(data_page_v2(header, page)?),
            _ => {} // an index page
        }
        Some(())
    }
}

/// The first page's header, the page, and the bytes behind it.
fn first_page(chunk: &[u8]) -> Option<(Struct, &[u8], &[u8])> {
    let (header, length) = Struct::read(chunk)?;
    let size = header.count(page_header::COMPRESSED_PAGE_SIZE)?;
    let (page, rest) = chunk.get(length..)?.split_at_checked(size)?;
    Some((header, page, rest))
}

/// The checksum that gzip has, too.
fn crc_32(bytes: &[u8]) -> u32 {
    let shift = |crc: u32, _| (crc >> 1) ^ ((crc & 1) * 0xEDB8_8320);
    let add = |crc: u32, byte: &u8| (0..8).fold(crc ^ u32::from(*byte), shift);
    !bytes.iter().fold(!0, add)
}

/// A page whose levels, of which a required column has none, would stand before its entries.
fn data_page(header: &Struct, body: &[u8]) -> Option<Page> {
    let header = header.inner(page_header::DATA_PAGE_HEADER)?;
    Some(Page {
        rows: header.count(data_page_header::NUM_VALUES)?,
        encoding: header.int(data_page_header::ENCODING)?,
        entries: body.to_vec(),
    })
}

/// A page whose header says how long its levels are.
fn data_page_v2(header: &Struct, body: &[u8]) -> Option<Page> {
    let header = header.inner(page_header::DATA_PAGE_HEADER_V2)?;
    let definition = header.count(data_page_header_v2::DEFINITION_LEVELS_BYTE_LENGTH)?;
    let repetition = header.count(data_page_header_v2::REPETITION_LEVELS_BYTE_LENGTH)?;
    Some(Page {
        rows: header.count(data_page_header_v2::NUM_VALUES)?,
        encoding: header.int(data_page_header_v2::ENCODING)?,
        entries: body.get(definition.checked_add(repetition)?..)?.to_vec(),
    })
}
