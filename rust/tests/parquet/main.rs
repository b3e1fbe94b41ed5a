//! The examples cut_parquet and write_parquet, and the Parquet file of the sample day.

#[path = "../../examples/cut_parquet/cutting/mod.rs"]
mod cut_parquet;
#[path = "../../examples/parquet/mod.rs"]
#[allow(dead_code, reason = "how a program ends is for the examples alone")]
mod parquet;
#[path = "../../examples/write_parquet/writing/mod.rs"]
mod write_parquet;

mod becomes;
mod cited;
mod damage;
mod day;
mod made;
mod pages;
mod places;
mod refused;
mod written;
