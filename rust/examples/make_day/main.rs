//! Writes the sample day into a folder, by default data/day: `cargo run --example make_day [FOLDER]`.

use std::error::Error;
use std::path::{Path, PathBuf};
use std::{env, fs};

mod columns;
mod pages;

/// The checked-in sample day.
fn day() -> PathBuf {
    Path::new(env!("CARGO_MANIFEST_DIR")).join("../data/day")
}

fn main() -> Result<(), Box<dyn Error>> {
    let folder = env::args_os().nth(1).map_or_else(day, PathBuf::from);
    fs::create_dir_all(&folder)?;
    for (name, bytes) in pages::files()? {
        fs::write(folder.join(name), bytes)?;
    }
    Ok(())
}
