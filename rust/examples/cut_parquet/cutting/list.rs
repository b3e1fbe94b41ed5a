//! The columns of a file, as a table.

use std::io::{Read, Seek};

use super::column::{Chunk, Column};
use super::cut::{cut, Cut};
use super::file::File;
use super::footer::Footer;
use crate::parquet::ending::counted;
use crate::parquet::format::{name, CODECS, ENCODINGS, TYPES};

const HEAD: [&str; 6] = ["column", "type", "encodings", "rows", "codec", "for scan"];

pub fn list<R: Read + Seek>(file: &mut File<R>, footer: &Footer) -> String {
    let rows = counted(footer.rows, "row", "rows");
    let groups = counted(footer.row_groups, "row group", "row groups");
    let mut table = vec![HEAD.map(str::to_owned)];
    table.extend(footer.columns.iter().map(|column| row(file, column)));
    let head = format!(
        "{rows} in {groups}, written by {}\n",
        shown(&footer.created_by)
    );
    head + &lines(&table)
}

fn row<R: Read + Seek>(file: &mut File<R>, column: &Column) -> [String; 6] {
    let chunks: Vec<&Chunk> = column.chunks.iter().flatten().collect();
    let rows = chunks
        .iter()
        .fold(0usize, |rows, chunk| rows.saturating_add(chunk.rows));
    let encodings = chunks
        .iter()
        .flat_map(|chunk| chunk.encodings.iter().copied());
    let codecs = chunks.iter().map(|chunk| chunk.codec);
    let fits = cut(file, column).map(|cut| reads(&cut));
    [
        shown(&column.name),
        name(&TYPES, column.kind),
        all_names(&ENCODINGS, encodings),
        rows.to_string(),
        all_names(&CODECS, codecs),
        fits.unwrap_or_else(|why| format!("does not fit: {why}")),
    ]
}

/// A text of the file, without what a terminal would obey.
fn shown(text: &str) -> String {
    text.replace(char::is_control, "?")
}

/// Each name once, in the order of the numbers.
fn all_names(names: &[&str], numbers: impl Iterator<Item = i64>) -> String {
    let mut numbers: Vec<i64> = numbers.collect();
    numbers.sort();
    numbers.dedup();
    let named: Vec<String> = numbers
        .into_iter()
        .map(|number| name(names, number))
        .collect();
    named.join(",")
}

/// The layout, and what there is to say of it.
fn reads(cut: &Cut) -> String {
    let mut said = cut.layout.name().to_owned();
    if cut.entries_as_scan_counts().is_none() {
        said += ", page by page";
    }
    let mut refusals = cut.pages.iter().filter_map(|page| page.judged.err());
    if let Some(first) = refusals.next() {
        let (refused, pages) = (1 + refusals.count(), cut.pages.len());
        said += &format!("; {refused} of {pages} pages refused, the first with {first}");
    }
    said
}

/// A line for each row, all cells but the last as wide as the widest of their column.
fn lines(table: &[[String; 6]]) -> String {
    let width = |i: usize| {
        table
            .iter()
            .map(|row| row[i].chars().count())
            .max()
            .unwrap_or(0)
    };
    let widths: Vec<usize> = (0..5).map(width).collect();
    let line = |row: &[String; 6]| {
        let cells = row
            .iter()
            .zip(&widths)
            .map(|(cell, width)| format!("{cell:width$}  "));
        cells.collect::<String>() + &row[5] + "\n"
    };
    table.iter().map(line).collect()
}
