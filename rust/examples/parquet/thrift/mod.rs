//! Thrift's compact protocol. A field is its kind and how far its number is above the last field's, in one
//! byte, and then its value; numbers are variable-length ones of zigzag, texts and lists have their length in
//! front.

pub mod read;
pub mod write;

/// The kinds of values. A field that is a bool has no value behind its kind.
const STOP: u8 = 0;
const TRUE: u8 = 1;
const FALSE: u8 = 2;
const BYTE: u8 = 3;
const I16: u8 = 4;
const I32: u8 = 5;
const I64: u8 = 6;
const DOUBLE: u8 = 7;
const BINARY: u8 = 8;
const LIST: u8 = 9;
const SET: u8 = 10;
const MAP: u8 = 11;
const STRUCT: u8 = 12;

/// From this length on, a list's is written behind its first byte and not in it.
const LONG_LIST: usize = 15;
