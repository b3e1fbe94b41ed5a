//! The page files of a column, and what each of them is.

use std::fs;
use std::path::Path;

use super::command::commands;
use super::cut::Cut;
use super::names::Names;
use super::page_file::PageFile;
use crate::parquet::ending::counted;
use crate::parquet::layout::Layout;

/// Writes the pages, and says what each is and how scan reads them.
pub fn write(column: &str, cut: &Cut, folder: &Path) -> Result<String, String> {
    let names = Names::of(column, cut, folder);
    fs::create_dir_all(folder).map_err(|error| format!("{}: {error}", folder.display()))?;
    names.alone_in_the_folder()?;
    let mut said = String::new();
    if let Some(values) = &cut.dictionary {
        let what = counted(values.len() / 4, "value", "values");
        said += &put(folder, &names.dictionary(), values, &what)?;
    }
    for (number, page) in (1..).zip(&cut.pages) {
        said += &put(folder, &names.page(number), &page.bytes, &what(page))?;
    }
    Ok(said + &summary(cut) + &commands(cut, &names))
}

/// Writes a file, and says what it is.
fn put(folder: &Path, name: &str, bytes: &[u8], what: &str) -> Result<String, String> {
    let path = folder.join(name);
    match fs::write(&path, bytes) {
        Ok(()) => Ok(format!("{}: {what}\n", path.display())),
        Err(error) => Err(format!("{}: {error}", path.display())),
    }
}

/// What a page is, and what the library says of it.
fn what(page: &PageFile) -> String {
    let entries = counted(page.entries, "entry", "entries");
    match page.judged {
        Ok(()) => format!(
            "{entries} in {}",
            counted(page.bytes.len(), "byte", "bytes")
        ),
        Err(refusal) => format!("{entries}, refused with {refusal}"),
    }
}

fn summary(cut: &Cut) -> String {
    let entries = cut.pages.iter().map(|page| page.entries).sum();
    let entries = counted(entries, "entry", "entries");
    let pages = counted(cut.pages.len(), "page", "pages");
    let unsigned = match cut.layout {
        Layout::Horizontal(32) => " They are compared as unsigned numbers: -1 is 4294967295.",
        _ => "",
    };
    format!("{entries} in {pages}.{unsigned}\n")
}
