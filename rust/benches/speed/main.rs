//! The library's speed beside Rust loops for the same job, as tables for docs/BENCHMARKS.md and, in target/speed.svg,
//! as its picture. It prints and asserts nothing about time. A layout is a module here, with its own rows, and so are
//! bitmaps and spans.

#![allow(
    clippy::incompatible_msrv,
    reason = "the benchmark may need a newer compiler than the package"
)]

mod bitmap;
mod bits;
mod clock;
mod column;
mod delta;
mod dictionary;
mod horizontal;
mod picture;
mod race;
mod runs;
mod spans;
mod steps;
mod table;
mod vertical;
mod writer;

use std::path::Path;
use std::{fs, io};

fn main() -> io::Result<()> {
    println!(
        "{} ({}), ns an entry: the median of {} batches and, in brackets, the least.",
        std::env::consts::ARCH,
        std::env::consts::OS,
        clock::BATCHES
    );
    println!("A ratio is of speeds, by the medians: at 2.00 ours takes half the time.");
    println!("The last column is how many instructions ours executes an entry, counted step by step in one call.");
    let drawn = [
        horizontal::report(),
        vertical::report(),
        runs::report(),
        delta::report(),
        dictionary::report(),
    ];
    bitmap::report();
    spans::report();
    let target = Path::new(env!("CARGO_MANIFEST_DIR")).join("../target");
    fs::create_dir_all(&target)?;
    let drawn: Vec<_> = drawn.into_iter().flatten().collect();
    fs::write(target.join("speed.svg"), picture::of(&drawn))
}
