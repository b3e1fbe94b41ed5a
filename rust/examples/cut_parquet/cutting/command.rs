//! The command that scans the pages of a column.

use cahermisk::MAX_ENTRIES;

use super::cut::Cut;
use super::names::Names;

/// A question that any column has an answer to, for the place of the user's own.
fn asked(cut: &Cut) -> &'static str {
    match cut.layout.width() {
        Some(1) => "equal 1",
        _ => "at-least 0",
    }
}

/// One command, if each page but the last is full, and otherwise one for each page.
pub fn commands(cut: &Cut, names: &Names) -> String {
    if let Some(entries) = cut.entries_as_scan_counts() {
        let pages = names.any_page_quoted();
        let command = command(cut, names, &format!("--entries {entries}"), &pages);
        return format!("Ask for instance:\n{command}");
    }
    let each = (1..).zip(&cut.pages).map(|(number, page)| {
        let last = format!("--last {}", page.entries);
        command(cut, names, &last, &names.quoted(&names.page(number)))
    });
    format!(
        "scan takes each page but the last as one of {MAX_ENTRIES} entries, which these are not.\n\
         Write the file with such pages, or ask page by page, for instance:\n{}",
        each.collect::<String>()
    )
}

fn command(cut: &Cut, names: &Names, option: &str, pages: &str) -> String {
    let mut words = vec!["scan".to_owned(), cut.layout.name().to_owned()];
    words.extend(cut.layout.width().map(|width| format!("--width {width}")));
    words.push(option.to_owned());
    words.extend(
        cut.dictionary
            .as_ref()
            .map(|_| names.quoted(&names.dictionary())),
    );
    words.push(pages.to_owned());
    format!("  {} {}\n", words.join(" "), asked(cut))
}
