//! The numbers of parquet.thrift that are read or written, and their names.

/// The first and the last bytes of a file, and the last ones where the footer is encrypted.
pub const MAGIC: [u8; 4] = *b"PAR1";
pub const ENCRYPTED: [u8; 4] = *b"PARE";

/// The bytes behind the footer: its length and the magic.
pub const TAIL: usize = 8;

pub const BOOLEAN: i64 = 0;
pub const INT32: i64 = 1;
pub const TYPES: [&str; 8] = [
    "BOOLEAN",
    "INT32",
    "INT64",
    "INT96",
    "FLOAT",
    "DOUBLE",
    "BYTE_ARRAY",
    "FIXED_LEN_BYTE_ARRAY",
];

pub const PLAIN: i64 = 0;
pub const PLAIN_DICTIONARY: i64 = 2;
pub const RLE: i64 = 3;
pub const DELTA_BINARY_PACKED: i64 = 5;
pub const RLE_DICTIONARY: i64 = 8;
pub const ENCODINGS: [&str; 10] = [
    "PLAIN",
    "GROUP_VAR_INT",
    "PLAIN_DICTIONARY",
    "RLE",
    "BIT_PACKED",
    "DELTA_BINARY_PACKED",
    "DELTA_LENGTH_BYTE_ARRAY",
    "DELTA_BYTE_ARRAY",
    "RLE_DICTIONARY",
    "BYTE_STREAM_SPLIT",
];

pub const UNCOMPRESSED: i64 = 0;
pub const CODECS: [&str; 8] = [
    "UNCOMPRESSED",
    "SNAPPY",
    "GZIP",
    "LZO",
    "BROTLI",
    "LZ4",
    "ZSTD",
    "LZ4_RAW",
];

pub const REQUIRED: i64 = 0;
pub const REPETITIONS: [&str; 3] = ["required", "optional", "repeated"];

pub const DATA_PAGE: i64 = 0;
pub const INDEX_PAGE: i64 = 1;
pub const DICTIONARY_PAGE: i64 = 2;
pub const DATA_PAGE_V2: i64 = 3;

/// The name of a number, or the number itself where it has none.
pub fn name(names: &[&str], number: i64) -> String {
    let place = usize::try_from(number).ok();
    match place.and_then(|place| names.get(place)) {
        Some(name) => (*name).to_owned(),
        None => format!("number {number}"),
    }
}
