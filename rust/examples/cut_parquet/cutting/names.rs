//! The names of a column's files, for the folder and for a shell.

use std::fs;
use std::path::Path;

use super::cut::Cut;
use crate::parquet::layout::Layout;

pub struct Names<'a> {
    folder: &'a Path,
    column: String,
    pages: usize,
    digits: usize,
    ending: &'static str,
}

impl Names<'_> {
    pub fn of<'a>(column: &str, cut: &Cut, folder: &'a Path) -> Names<'a> {
        let plain = |c: char| if is_plain(c) { c } else { '_' };
        let pages = cut.pages.len();
        Names {
            folder,
            column: column.chars().map(plain).collect(),
            pages,
            digits: pages.to_string().len().max(3),
            ending: match cut.layout {
                Layout::Dictionary => "idx",
                other => other.name(),
            },
        }
    }

    pub fn page(&self, number: usize) -> String {
        let (column, digits, ending) = (&self.column, self.digits, self.ending);
        format!("{column}-{number:0digits$}.{ending}")
    }

    pub fn dictionary(&self) -> String {
        format!("{}.dict", self.column)
    }

    /// A file of the folder, as a shell takes it.
    pub fn quoted(&self, name: &str) -> String {
        let path = self.folder.join(name).display().to_string();
        match path.chars().all(|c| is_plain(c) || c == '/') {
            true => path,
            false => format!("'{}'", path.replace('\'', r"'\''")),
        }
    }

    /// What a shell takes for all pages.
    pub fn any_page_quoted(&self) -> String {
        let before = self.quoted(&format!("{}-", self.column));
        format!("{before}{}.{}", "?".repeat(self.digits), self.ending)
    }

    /// Whether a shell would take a file for a page, and it is none of these.
    fn is_another_page(&self, file: &str) -> bool {
        let rest = file.strip_prefix(&format!("{}-", self.column));
        let number = rest.and_then(|rest| rest.strip_suffix(&format!(".{}", self.ending)));
        number.is_some_and(|number| {
            let these = 1..=self.pages;
            let is_of_these = number.parse().is_ok_and(|number| these.contains(&number));
            number.chars().count() == self.digits && !is_of_these
        })
    }

    /// A page of an earlier cut would be read as one of this.
    pub fn alone_in_the_folder(&self) -> Result<(), String> {
        let told = |error| format!("{}: {error}", self.folder.display());
        for file in fs::read_dir(self.folder).map_err(told)?.flatten() {
            if self.is_another_page(&file.file_name().to_string_lossy()) {
                return Err(format!(
                    "{} is there already and is none of these pages: remove it, or name another folder",
                    file.path().display()
                ));
            }
        }
        Ok(())
    }
}

/// What may stand in a file's name without a thought.
fn is_plain(c: char) -> bool {
    c.is_alphanumeric() || "._-".contains(c)
}
