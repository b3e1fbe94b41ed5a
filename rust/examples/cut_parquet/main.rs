//! Turns a column of an uncompressed Parquet file into page files for the program scan:
//! `cargo run --example cut_parquet FILE [COLUMN FOLDER]`. Without COLUMN it lists the columns.

use std::process::ExitCode;

mod cutting;

#[path = "../parquet/mod.rs"]
#[allow(dead_code, reason = "some of it is for write_parquet alone")]
mod parquet;

fn main() -> ExitCode {
    parquet::ending::told("cut_parquet", cutting::answer)
}
