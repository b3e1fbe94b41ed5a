//! Markdown tables, printed row by row as they are measured.

use std::fmt::Display;

use crate::clock::Taken;

/// The time of each way, and the instructions that ours executes an entry, where they can be counted.
pub struct Measured {
    pub taken: Vec<Taken>,
    pub instructions: Option<f64>,
    /// How many planes of a group are taken, for a table that has them.
    pub planes: Option<f64>,
}

/// The times of several ways to do one job, by width. The first way is ours.
pub struct Table {
    pub title: String,
    pub ways: Vec<&'static str>,
    pub rows: Vec<(u32, Vec<Taken>)>,
}

impl Table {
    /// Measures each width and prints its row. The ways after ours have their ratios at the end of each row.
    pub fn of(
        title: &str,
        others: &[&'static str],
        widths: impl IntoIterator<Item = u32>,
        measure: impl Fn(u32) -> Measured,
    ) -> Table {
        Table::below(&["width"], title, others, widths, measure)
    }

    /// The same with the planes taken, beside each width.
    pub fn with_planes(
        title: &str,
        others: &[&'static str],
        widths: impl IntoIterator<Item = u32>,
        measure: impl Fn(u32) -> Measured,
    ) -> Table {
        Table::below(&["width", "planes"], title, others, widths, measure)
    }

    fn below(
        heads: &[&str],
        title: &str,
        others: &[&'static str],
        widths: impl IntoIterator<Item = u32>,
        measure: impl Fn(u32) -> Measured,
    ) -> Table {
        Table {
            title: title.to_string(),
            ways: [&["ours"], others].concat(),
            rows: rows(title, heads, others, widths, measure),
        }
    }
}

/// Measures each row and prints it, below heads that say what a row is. Gives the times.
pub fn rows<R: Copy + Display>(
    title: &str,
    heads: &[&str],
    others: &[&str],
    rows: impl IntoIterator<Item = R>,
    measure: impl Fn(R) -> Measured,
) -> Vec<(R, Vec<Taken>)> {
    print_heading(title, heads, others);
    let measured = rows.into_iter().map(|row| {
        let measured = measure(row);
        print_row(row, &measured);
        (row, measured.taken)
    });
    measured.collect()
}

fn print_heading(title: &str, heads: &[&str], others: &[&str]) {
    let names = [heads, &["ours"], others].concat();
    let mut names: Vec<String> = names.iter().map(|name| name.to_string()).collect();
    names.extend(others.iter().map(|other| format!("ours/{other}")));
    names.push("instructions".to_string());
    println!("\n{title}\n\n| {} |", names.join(" | "));
    println!("|{}", "--:|".repeat(names.len()));
}

/// Two digits behind the point, or three where the first is 0.
fn short(number: f64) -> String {
    let digits = if number < 0.095 { 3 } else { 2 };
    format!("{number:.digits$}")
}

fn print_row(row: impl Display, measured: &Measured) {
    let taken = &measured.taken;
    let planes = measured.planes.map(|planes| format!("{planes:.2}"));
    let times = taken
        .iter()
        .map(|t| format!("{} ({})", short(t.median), short(t.least)));
    let ratios = taken[1..]
        .iter()
        .map(|t| format!("{:.2}", t.median / taken[0].median));
    let counted = measured.instructions.map_or("-".to_string(), short);
    let cells = planes.into_iter().chain(times).chain(ratios);
    let cells: Vec<String> = cells.chain([counted]).collect();
    println!("| {row} | {} |", cells.join(" | "));
}
