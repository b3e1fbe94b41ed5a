//! What the program does for its words.

use std::fs;

mod column;
mod file;
mod pages;
mod question;

use column::Column;
use question::Question;

use crate::parquet::ending::ask_for_help;

const USAGE: &str = "\
usage: write_parquet OUT.parquet --entries N --column NAME LAYOUT FILE... [--column ...]
Puts the pages of N entries into a Parquet file, full pages but the last. As in
  write_parquet day.parquet --entries 86400 --column level delta level-*.delta \\
      --column landing dictionary landing.dict landing-*.idx --column calls runs:3 calls-*.runs
Layouts: delta, dictionary (its first file is the dictionary), runs:WIDTH,
  horizontal:WIDTH (1 or 32), bitmap (one file, as scan --bitmap writes it).
";

/// What the program prints for these words, or why it does nothing.
pub fn answer(words: &[String]) -> Result<String, String> {
    if ask_for_help(words) {
        return Ok(USAGE.to_owned());
    }
    let question = Question::of(words).map_err(|why| format!("{why}\n{USAGE}"))?;
    let columns = question
        .columns
        .iter()
        .map(|asked| Column::read(asked, question.entries));
    let columns: Vec<Column> = columns.collect::<Result<_, _>>()?;
    question.out_is_none_of_the_pages()?;
    let bytes = file::file(question.entries, &columns);
    fs::write(question.out, &bytes).map_err(|error| format!("{}: {error}", question.out))?;
    let lines: String = columns.iter().map(Column::line).collect();
    let (out, entries) = (question.out, question.entries);
    Ok(format!(
        "{lines}{out}: {entries} rows in {} bytes\n",
        bytes.len()
    ))
}
