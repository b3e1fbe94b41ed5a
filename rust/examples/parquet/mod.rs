//! What cut_parquet and write_parquet share: the numbers of the file format; Thrift's compact protocol, in
//! which a Parquet file has its footer and page headers; which layout is which encoding; how a program ends.

pub mod ending;
pub mod fields;
pub mod format;
pub mod layout;
pub mod thrift;
