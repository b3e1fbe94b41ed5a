//! What the program does for its words.

use std::fs;
use std::io::{Read, Seek};
use std::path::Path;

mod column;
mod command;
pub mod cut;
mod file;
mod footer;
pub mod list;
mod names;
pub mod page_file;
mod pages;
mod written;

use cut::{cut, Cut};
use file::File;
use footer::Footer;

use crate::parquet::ending::ask_for_help;

const USAGE: &str = "\
usage: cut_parquet FILE                 lists the columns of a Parquet file, and which fit
       cut_parquet FILE COLUMN FOLDER   writes the pages of a column there, and says how scan reads them
";

/// What the program prints for these words, or why it does nothing.
pub fn answer(words: &[String]) -> Result<String, String> {
    match words {
        _ if ask_for_help(words) => Ok(USAGE.to_owned()),
        [path] => named(path, || {
            let (mut file, footer) = opened(at(path)?)?;
            Ok(list::list(&mut file, &footer))
        }),
        [path, name, folder] => {
            let cut = named(path, || cut_column(at(path)?, name))?;
            written::write(name, &cut, Path::new(folder))
        }
        _ => Err(format!(
            "name a file, and to cut a column also the column and a folder\n{USAGE}"
        )),
    }
}

/// A sentence about a file begins with its name.
fn named<T>(path: &str, ask: impl FnOnce() -> Result<T, String>) -> Result<T, String> {
    ask().map_err(|sentence| format!("{path}: {sentence}"))
}

fn at(path: &str) -> Result<fs::File, String> {
    fs::File::open(path).map_err(|error| error.to_string())
}

pub fn opened<R: Read + Seek>(bytes: R) -> Result<(File<R>, Footer), String> {
    let mut file = File::open(bytes)?;
    let footer = Footer::of(&file.footer()?).ok_or(file::DAMAGED_FOOTER)?;
    Ok((file, footer))
}

pub fn cut_column<R: Read + Seek>(bytes: R, name: &str) -> Result<Cut, String> {
    let (mut file, footer) = opened(bytes)?;
    let cut = cut(&mut file, footer.column(name)?);
    cut.map_err(|why| format!("column {name} does not fit: {why}"))
}
