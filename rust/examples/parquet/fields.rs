//! The numbers of the fields that are read or written, by the structures of parquet.thrift that have them.

pub mod file_meta_data {
    pub const VERSION: i16 = 1;
    pub const SCHEMA: i16 = 2;
    pub const NUM_ROWS: i16 = 3;
    pub const ROW_GROUPS: i16 = 4;
    pub const CREATED_BY: i16 = 6;
}

pub mod schema_element {
    pub const TYPE: i16 = 1;
    pub const REPETITION_TYPE: i16 = 3;
    pub const NAME: i16 = 4;
    pub const NUM_CHILDREN: i16 = 5;
}

pub mod row_group {
    pub const COLUMNS: i16 = 1;
    pub const TOTAL_BYTE_SIZE: i16 = 2;
    pub const NUM_ROWS: i16 = 3;
}

pub mod column_chunk {
    pub const FILE_PATH: i16 = 1;
    pub const FILE_OFFSET: i16 = 2;
    pub const META_DATA: i16 = 3;
    pub const CRYPTO_METADATA: i16 = 8;
}

pub mod column_meta_data {
    pub const TYPE: i16 = 1;
    pub const ENCODINGS: i16 = 2;
    pub const PATH_IN_SCHEMA: i16 = 3;
    pub const CODEC: i16 = 4;
    pub const NUM_VALUES: i16 = 5;
    pub const TOTAL_UNCOMPRESSED_SIZE: i16 = 6;
    pub const TOTAL_COMPRESSED_SIZE: i16 = 7;
    pub const DATA_PAGE_OFFSET: i16 = 9;
    pub const DICTIONARY_PAGE_OFFSET: i16 = 11;
}

pub mod page_header {
    pub const TYPE: i16 = 1;
    pub const UNCOMPRESSED_PAGE_SIZE: i16 = 2;
    pub const COMPRESSED_PAGE_SIZE: i16 = 3;
    pub const CRC: i16 = 4;
    pub const DATA_PAGE_HEADER: i16 = 5;
    pub const DICTIONARY_PAGE_HEADER: i16 = 7;
    pub const DATA_PAGE_HEADER_V2: i16 = 8;
}

pub mod data_page_header {
    pub const NUM_VALUES: i16 = 1;
    pub const ENCODING: i16 = 2;
    pub const DEFINITION_LEVEL_ENCODING: i16 = 3;
    pub const REPETITION_LEVEL_ENCODING: i16 = 4;
}

pub mod dictionary_page_header {
    pub const NUM_VALUES: i16 = 1;
    pub const ENCODING: i16 = 2;
    pub const IS_SORTED: i16 = 3;
}

pub mod data_page_header_v2 {
    pub const NUM_VALUES: i16 = 1;
    pub const ENCODING: i16 = 4;
    pub const DEFINITION_LEVELS_BYTE_LENGTH: i16 = 5;
    pub const REPETITION_LEVELS_BYTE_LENGTH: i16 = 6;
}
