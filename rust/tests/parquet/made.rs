//! Parquet files of one column, as any writer might make them.

use crate::parquet::fields::{
    column_chunk, column_meta_data, data_page_header, data_page_header_v2, dictionary_page_header,
    file_meta_data, page_header, row_group, schema_element,
};
use crate::parquet::format::{
    DATA_PAGE, DATA_PAGE_V2, DELTA_BINARY_PACKED, DICTIONARY_PAGE, INT32, MAGIC, PLAIN, REQUIRED,
    RLE, UNCOMPRESSED,
};
use crate::parquet::thrift::write::Struct;

/// The column c of a file, and what a test changes of it.
pub struct Made {
    pub kind: i64,
    pub repetition: i64,
    pub codec: i64,
    pub is_v2: bool,
    pub checksum: Option<u32>,
    /// A field of each chunk that is a text, and makes it one that is not read.
    pub chunk_field: Option<i16>,
    /// What the footer says besides the rows that there are.
    pub more_rows: usize,
    pub groups: Vec<Group>,
}

#[derive(Clone, Default)]
pub struct Group {
    pub dictionary: Option<Vec<u8>>,
    /// Rows, encoding and bytes of each data page.
    pub pages: Vec<(usize, i64, Vec<u8>)>,
}

impl Group {
    pub fn rows(&self) -> usize {
        self.pages.iter().map(|page| page.0).sum()
    }
}

impl Made {
    /// A column of one row group.
    pub fn of(kind: i64, encoding: i64, pages: &[(usize, &[u8])]) -> Made {
        let page = |&(rows, bytes): &(usize, &[u8])| (rows, encoding, bytes.to_vec());
        Made {
            kind,
            repetition: REQUIRED,
            codec: UNCOMPRESSED,
            is_v2: false,
            checksum: None,
            chunk_field: None,
            more_rows: 0,
            groups: vec![Group {
                dictionary: None,
                pages: pages.iter().map(page).collect(),
            }],
        }
    }

    /// Three entries in a delta page: 7, 5, 3.
    pub fn delta() -> Made {
        let page = cahermisk::delta::pack_to_vec(&[7, 5, 3]).expect("three entries");
        Made::of(INT32, DELTA_BINARY_PACKED, &[(3, &page)])
    }

    pub fn with_dictionary(mut self, values: &[i32]) -> Made {
        let bytes = values
            .iter()
            .flat_map(|value| value.to_le_bytes())
            .collect();
        self.groups[0].dictionary = Some(bytes);
        self
    }

    pub fn file(&self) -> Vec<u8> {
        let mut bytes = MAGIC.to_vec();
        let groups = self.groups.iter().map(|group| {
            Struct::default()
                .structs(row_group::COLUMNS, vec![self.chunk(&mut bytes, group)])
                .i64(row_group::NUM_ROWS, group.rows())
        });
        let groups = groups.collect();
        let rows: usize = self.groups.iter().map(Group::rows).sum();
        let root = Struct::default()
            .text(schema_element::NAME, "root")
            .i32(schema_element::NUM_CHILDREN, 1);
        let column = Struct::default()
            .i32(schema_element::TYPE, self.kind)
            .i32(schema_element::REPETITION_TYPE, self.repetition)
            .text(schema_element::NAME, "c");
        let footer = Struct::default()
            .structs(file_meta_data::SCHEMA, vec![root, column])
            .i64(file_meta_data::NUM_ROWS, rows)
            .structs(file_meta_data::ROW_GROUPS, groups)
            .end();
        bytes.extend(&footer);
        bytes.extend((footer.len() as u32).to_le_bytes());
        bytes.extend(MAGIC);
        bytes
    }

    fn chunk(&self, bytes: &mut Vec<u8>, group: &Group) -> Struct {
        let at = bytes.len();
        if let Some(values) = &group.dictionary {
            let inner = Struct::default()
                .i32(dictionary_page_header::NUM_VALUES, values.len() as i64 / 4)
                .i32(dictionary_page_header::ENCODING, PLAIN);
            self.lay(bytes, DICTIONARY_PAGE, values, inner);
        }
        for (rows, encoding, page) in &group.pages {
            self.lay_data(bytes, *rows as i64, *encoding, page);
        }
        let meta_data = Struct::default()
            .i32s(column_meta_data::ENCODINGS, &[RLE])
            .i32(column_meta_data::CODEC, self.codec)
            .i64(column_meta_data::NUM_VALUES, group.rows() + self.more_rows)
            .i64(column_meta_data::TOTAL_COMPRESSED_SIZE, bytes.len() - at)
            .i64(column_meta_data::DATA_PAGE_OFFSET, at);
        match self.chunk_field {
            Some(field @ column_chunk::FILE_PATH) => Struct::default()
                .text(field, "other.parquet")
                .inner(column_chunk::META_DATA, meta_data),
            Some(field) => Struct::default().text(field, "key"),
            None => Struct::default().inner(column_chunk::META_DATA, meta_data),
        }
    }

    fn lay_data(&self, bytes: &mut Vec<u8>, rows: i64, encoding: i64, page: &[u8]) {
        if !self.is_v2 {
            let inner = Struct::default()
                .i32(data_page_header::NUM_VALUES, rows)
                .i32(data_page_header::ENCODING, encoding)
                .i32(data_page_header::DEFINITION_LEVEL_ENCODING, RLE)
                .i32(data_page_header::REPETITION_LEVEL_ENCODING, RLE);
            return self.lay(bytes, DATA_PAGE, page, inner);
        }
        // Levels that a required column does not need, but whose lengths are said.
        let page = [&[9, 9, 9], page].concat();
        let inner = Struct::default()
            .i32(data_page_header_v2::NUM_VALUES, rows)
            .i32(data_page_header_v2::ENCODING, encoding)
            .i32(data_page_header_v2::DEFINITION_LEVELS_BYTE_LENGTH, 2)
            .i32(data_page_header_v2::REPETITION_LEVELS_BYTE_LENGTH, 1);
        self.lay(bytes, DATA_PAGE_V2, &page, inner);
    }

    /// Lays a page with its header behind the bytes; `inner` is the header's part that goes by its kind.
    fn lay(&self, bytes: &mut Vec<u8>, kind: i64, page: &[u8], inner: Struct) {
        let field = match kind {
            DICTIONARY_PAGE => page_header::DICTIONARY_PAGE_HEADER,
            DATA_PAGE => page_header::DATA_PAGE_HEADER,
            _ => page_header::DATA_PAGE_HEADER_V2,
        };
        let mut header = Struct::default()
            .i32(page_header::TYPE, kind)
            .i32(page_header::COMPRESSED_PAGE_SIZE, page.len() as i64);
        if let Some(checksum) = self.checksum {
            header = header.i32(page_header::CRC, (checksum as i32).into());
        }
        bytes.extend(header.inner(field, inner).end());
        bytes.extend(page);
    }
}
