//! The bytes of the file: one row group, a column's pages one behind the other, its dictionary before them.

use super::column::Column;
use super::pages::Page;
use crate::parquet::fields::{
    column_chunk, column_meta_data, data_page_header, dictionary_page_header, file_meta_data,
    page_header, row_group, schema_element,
};
use crate::parquet::format::{
    DATA_PAGE, DICTIONARY_PAGE, MAGIC, PLAIN, REQUIRED, RLE, UNCOMPRESSED,
};
use crate::parquet::thrift::write::Struct;

/// The format's version that has RLE_DICTIONARY and DELTA_BINARY_PACKED.
const VERSION: i64 = 2;
const CREATED_BY: &str = "cahermisk version 0.4.0";

pub fn file(rows: usize, columns: &[Column]) -> Vec<u8> {
    let mut bytes = MAGIC.to_vec();
    let chunks = columns
        .iter()
        .map(|column| chunk(&mut bytes, rows, column))
        .collect();
    let size = bytes.len() - MAGIC.len();
    let row_group = Struct::default()
        .structs(row_group::COLUMNS, chunks)
        .i64(row_group::TOTAL_BYTE_SIZE, size)
        .i64(row_group::NUM_ROWS, rows);
    let footer = Struct::default()
        .i32(file_meta_data::VERSION, VERSION)
        .structs(file_meta_data::SCHEMA, schema(columns))
        .i64(file_meta_data::NUM_ROWS, rows)
        .structs(file_meta_data::ROW_GROUPS, vec![row_group])
        .text(file_meta_data::CREATED_BY, CREATED_BY)
        .end();
    let length = footer.len() as u32;
    bytes.extend(footer);
    bytes.extend(length.to_le_bytes());
    bytes.extend(MAGIC);
    bytes
}

/// The root, and the columns in it.
fn schema(columns: &[Column]) -> Vec<Struct> {
    let root = Struct::default()
        .text(schema_element::NAME, "schema")
        .i32(schema_element::NUM_CHILDREN, columns.len() as i64);
    let leaf = |column: &Column| {
        Struct::default()
            .i32(schema_element::TYPE, column.kind)
            .i32(schema_element::REPETITION_TYPE, REQUIRED)
            .text(schema_element::NAME, &column.name)
    };
    [root].into_iter().chain(columns.iter().map(leaf)).collect()
}

/// Lays the pages of a column behind the bytes, and tells of them as the footer does.
fn chunk(bytes: &mut Vec<u8>, rows: usize, column: &Column) -> Struct {
    let at = bytes.len();
    if let Some(values) = &column.dictionary {
        lay(bytes, DICTIONARY_PAGE, values, |header| {
            dictionary_header(header, values)
        });
    }
    let data_at = bytes.len();
    for page in &column.pages {
        lay(bytes, DATA_PAGE, &page.bytes, |header| {
            data_header(header, column.encoding, page)
        });
    }
    let size = bytes.len() - at;
    let encodings = match column.dictionary {
        Some(_) => vec![PLAIN, column.encoding],
        None => vec![column.encoding],
    };
    let meta_data = Struct::default()
        .i32(column_meta_data::TYPE, column.kind)
        .i32s(column_meta_data::ENCODINGS, &encodings)
        .texts(column_meta_data::PATH_IN_SCHEMA, &[&column.name])
        .i32(column_meta_data::CODEC, UNCOMPRESSED)
        .i64(column_meta_data::NUM_VALUES, rows)
        .i64(column_meta_data::TOTAL_UNCOMPRESSED_SIZE, size)
        .i64(column_meta_data::TOTAL_COMPRESSED_SIZE, size)
        .i64(column_meta_data::DATA_PAGE_OFFSET, data_at);
    let meta_data = match column.dictionary {
        Some(_) => meta_data.i64(column_meta_data::DICTIONARY_PAGE_OFFSET, at),
        None => meta_data,
    };
    // The offset of the column's metadata outside the footer: there is none.
    Struct::default()
        .i64(column_chunk::FILE_OFFSET, 0)
        .inner(column_chunk::META_DATA, meta_data)
}

/// Lays a page with its header behind the bytes.
fn lay(bytes: &mut Vec<u8>, kind: i64, page: &[u8], inner: impl FnOnce(Struct) -> Struct) {
    let size = page.len() as i64;
    let header = Struct::default()
        .i32(page_header::TYPE, kind)
        .i32(page_header::UNCOMPRESSED_PAGE_SIZE, size)
        .i32(page_header::COMPRESSED_PAGE_SIZE, size);
    bytes.extend(inner(header).end());
    bytes.extend(page);
}

/// The values stand ascending, since the library has accepted them.
fn dictionary_header(header: Struct, values: &[u8]) -> Struct {
    let inner = Struct::default()
        .i32(dictionary_page_header::NUM_VALUES, values.len() as i64 / 4)
        .i32(dictionary_page_header::ENCODING, PLAIN)
        .holds(dictionary_page_header::IS_SORTED);
    header.inner(page_header::DICTIONARY_PAGE_HEADER, inner)
}

/// A required column has no levels; their encodings are named all the same.
fn data_header(header: Struct, encoding: i64, page: &Page) -> Struct {
    let inner = Struct::default()
        .i32(data_page_header::NUM_VALUES, page.rows as i64)
        .i32(data_page_header::ENCODING, encoding)
        .i32(data_page_header::DEFINITION_LEVEL_ENCODING, RLE)
        .i32(data_page_header::REPETITION_LEVEL_ENCODING, RLE);
    header.inner(page_header::DATA_PAGE_HEADER, inner)
}
