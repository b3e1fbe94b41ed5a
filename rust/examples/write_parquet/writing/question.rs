//! What the words of the command ask for.

use std::fs;

/// The file to write, its entries, and its columns.
pub struct Question<'a> {
    pub out: &'a str,
    pub entries: usize,
    pub columns: Vec<Asked<'a>>,
}

/// A column: its name, its layout with the width that belongs to it, and its files.
pub struct Asked<'a> {
    pub name: &'a str,
    pub layout: &'a str,
    pub width: Option<u32>,
    pub files: &'a [String],
}

impl Question<'_> {
    pub fn of(words: &[String]) -> Result<Question<'_>, String> {
        let mut parts = words.split(|word| word == "--column");
        let first = parts.next().unwrap_or_default();
        let [out, option, entries] = first else {
            return Err("name the file to write, and --entries with their number".to_owned());
        };
        let entries = entries
            .parse()
            .ok()
            .filter(|&n: &usize| option == "--entries" && n > 0);
        let entries =
            entries.ok_or("the file's name is followed by --entries and a number from 1 up")?;
        let columns: Vec<Asked> = parts.map(Asked::of).collect::<Result<_, _>>()?;
        if columns.is_empty() {
            return Err("name a column: --column NAME LAYOUT FILE...".to_owned());
        }
        for (i, column) in columns.iter().enumerate() {
            if columns[..i].iter().any(|other| other.name == column.name) {
                return Err(format!("column {} is named twice", column.name));
            }
        }
        Ok(Question {
            out,
            entries,
            columns,
        })
    }

    /// A page that is also the file to write would be lost.
    pub fn out_is_none_of_the_pages(&self) -> Result<(), String> {
        let Ok(out) = fs::canonicalize(self.out) else {
            return Ok(()); // it is not there yet
        };
        let mut files = self.columns.iter().flat_map(|column| column.files);
        match files.any(|file| fs::canonicalize(file).is_ok_and(|file| file == out)) {
            true => Err(format!(
                "{} is one of the pages: name another file to write",
                self.out
            )),
            false => Ok(()),
        }
    }
}

impl Asked<'_> {
    fn of(words: &[String]) -> Result<Asked<'_>, String> {
        let [name, layout, files @ ..] = words else {
            return Err("a column has a name, a layout and files".to_owned());
        };
        let (layout, width) = match layout.split_once(':') {
            None => (layout.as_str(), None),
            Some((layout, width)) => {
                let number = width.parse().map_err(|_| format!("{width} is no width"))?;
                (layout, Some(number))
            }
        };
        Ok(Asked {
            name,
            layout,
            width,
            files,
        })
    }
}
