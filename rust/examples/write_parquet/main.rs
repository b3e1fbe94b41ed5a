//! Puts page files into a Parquet file that other readers take:
//! `cargo run --example write_parquet OUT --entries N --column NAME LAYOUT FILE...`.

use std::process::ExitCode;

mod writing;

#[path = "../parquet/mod.rs"]
#[allow(dead_code, reason = "some of it is for cut_parquet alone")]
mod parquet;

fn main() -> ExitCode {
    parquet::ending::told("write_parquet", writing::answer)
}
