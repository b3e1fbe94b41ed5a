//! data/parquet/day.parquet: write_parquet makes it again, and cut_parquet gives the day's pages and counts.

use std::fs;
use std::io::Cursor;

use cahermisk::{delta, dictionary, runs, Bitmap, Comparison, MAX_ENTRIES};

use crate::cut_parquet::cut::Cut;
use crate::cut_parquet::page_file::PageFile;
use crate::cut_parquet::{self, cut_column};
use crate::places::{bytes, folder, text, top, words};
use crate::write_parquet;

/// A page file of data/day.
fn day(name: &str) -> Vec<u8> {
    bytes(&top(&format!("data/day/{name}")))
}

fn cut(column: &str) -> Cut {
    cut_of("day", column)
}

fn cut_of(file: &str, column: &str) -> Cut {
    let file = bytes(&top(&format!("data/parquet/{file}.parquet")));
    cut_column(Cursor::new(file), column).expect("a column of the day")
}

/// How many entries a scan of all pages selects.
fn selected(cut: &Cut, scan: impl Fn(&PageFile) -> usize) -> usize {
    assert_eq!(cut.entries_as_scan_counts(), Some(86_400));
    cut.pages.iter().map(scan).sum()
}

/// The seconds in which a lift was called, as `scan --bitmap` writes them.
fn called_bitmap() -> Vec<u8> {
    let one = |number: usize| {
        let n = MAX_ENTRIES.min(86_400 - (number - 1) * MAX_ENTRIES);
        let page = day(&format!("calls-{number}.runs"));
        let bitmap = runs::scan_to_bitmap(&page, 3, n, Comparison::greater_or_equal(1));
        bitmap.expect("a good day").into_bytes()
    };
    (1..=6).flat_map(one).collect()
}

/// The command of docs/PARQUET.md, over the day's folder.
#[test]
fn the_writer_makes_the_same_file() {
    let folder = folder("day");
    let path = |name: &str| text(&folder.join(name));
    fs::write(path("called.bitmap"), called_bitmap()).expect("a bitmap");
    let pages = |name: &str| {
        let page = |number| {
            top(&format!(
                "data/day/{}",
                name.replace('*', &format!("{number}"))
            ))
        };
        (1..=6).map(page).collect::<Vec<_>>().join(" ")
    };
    let [out, dict] = [path("day.parquet"), top("data/day/landing.dict")];
    let command = format!(
        "{out} --entries 86400 --column level delta {} --column landing dictionary {dict} {} \
         --column calls runs:3 {} --column called bitmap {}",
        pages("level-*.delta"),
        pages("landing-*.idx"),
        pages("calls-*.runs"),
        path("called.bitmap")
    );
    let said = write_parquet::answer(&words(&command)).expect("a file");
    assert!(
        said.ends_with(&format!("{out}: 86400 rows in 65166 bytes\n")),
        "{said}"
    );
    let same = bytes(&out) == bytes(&top("data/parquet/day.parquet"));
    assert!(
        same,
        "data/parquet/day.parquet is not what write_parquet makes"
    );
}

#[test]
fn the_level_is_cut_as_it_was() {
    let cut = cut("level");
    for (number, page) in (1..).zip(&cut.pages) {
        assert_eq!(page.bytes, day(&format!("level-{number}.delta")));
    }
    let band = Comparison::between(110, 420);
    let scan =
        |page: &PageFile| delta::scan_to_bitmap(&page.bytes, page.entries, band).map(|b| b.count());
    assert_eq!(
        selected(&cut, |page| scan(page).expect("a good page")),
        74_559
    );
}

#[test]
fn the_landing_is_cut_as_it_was() {
    let cut = cut("landing");
    let values = cut.dictionary.as_deref().expect("a dictionary");
    assert_eq!(values, day("landing.dict"));
    for (number, page) in (1..).zip(&cut.pages) {
        assert_eq!(page.bytes, day(&format!("landing-{number}.idx")));
    }
    let deck = Comparison::equal(4);
    let scan =
        |page: &PageFile| dictionary::scan_to_bitmap(values, &page.bytes, page.entries, deck);
    assert_eq!(
        selected(&cut, |page| scan(page).expect("a good page").count()),
        16_812
    );
}

/// A run stream of three bits is an index page of a dictionary from 0 to 7 behind its width byte.
#[test]
fn the_calls_are_indexes() {
    let cut = cut("calls");
    let values: Vec<u8> = (0..8i32).flat_map(i32::to_le_bytes).collect();
    assert_eq!(cut.dictionary.as_ref(), Some(&values));
    for (number, page) in (1..).zip(&cut.pages) {
        assert_eq!(page.bytes[0], 3);
        assert_eq!(page.bytes[1..], day(&format!("calls-{number}.runs")));
    }
    let some = Comparison::greater_or_equal(1);
    let scan =
        |page: &PageFile| dictionary::scan_to_bitmap(&values, &page.bytes, page.entries, some);
    assert_eq!(
        selected(&cut, |page| scan(page).expect("a good page").count()),
        7_032
    );
}

/// The bitmap of the booleans that are set, and how many these are.
fn set(page: &PageFile) -> Bitmap {
    let set = runs::scan_to_bitmap(&page.bytes, 1, page.entries, Comparison::equal(1));
    set.expect("a good page")
}

fn booleans(cut: &Cut) -> Vec<u8> {
    let bitmaps = cut.pages.iter().map(set);
    bitmaps.flat_map(Bitmap::into_bytes).collect()
}

#[test]
fn the_bitmap_is_a_column_of_booleans() {
    let cut = cut("called");
    assert!(booleans(&cut) == called_bitmap());
    assert_eq!(selected(&cut, |page| set(page).count()), 7_032);
}

/// The same day as pyarrow writes it, the calls in another encoding.
#[test]
fn another_writers_pages_have_the_same_entries() {
    let [level, landing, calls, called] =
        ["level", "landing", "calls", "called"].map(|column| cut_of("pyarrow", column));
    assert!(deltas(&level) == deltas(&cut("level")));
    assert!(values(&landing) == values(&cut("landing")));
    assert!(deltas(&calls) == values(&cut("calls")));
    assert!(booleans(&called) == called_bitmap());
}

fn deltas(cut: &Cut) -> Vec<i32> {
    let unpack = |page: &PageFile| delta::unpack_to_vec(&page.bytes, page.entries);
    let pages = cut.pages.iter().map(unpack).collect::<Result<Vec<_>, _>>();
    pages.expect("good pages").concat()
}

fn values(cut: &Cut) -> Vec<i32> {
    let values = cut.dictionary.as_deref().expect("a dictionary");
    let unpack = |page: &PageFile| dictionary::unpack_to_vec(values, &page.bytes, page.entries);
    let pages = cut.pages.iter().map(unpack).collect::<Result<Vec<_>, _>>();
    pages.expect("good pages").concat()
}

/// What README.md and docs/PARQUET.md show is what the program prints.
#[test]
fn the_documents_show_what_is_printed() {
    let shown = |document: &str, text: &str| {
        let document_text = String::from_utf8(bytes(&top(document))).expect("a text");
        assert!(
            document_text.contains(text),
            "{document} does not show:\n{text}"
        );
    };
    let file = top("data/parquet/day.parquet");
    let listed = cut_parquet::answer(std::slice::from_ref(&file)).expect("a list");
    shown("README.md", &listed);
    shown("docs/PARQUET.md", &listed);
    for column in ["level", "landing", "calls", "called"] {
        let pages = text(&folder(column));
        let said = cut_parquet::answer(&[file.clone(), column.to_owned(), pages.clone()]);
        let said = said.expect("a cut").replace(&pages, "pages");
        let command = said.lines().last().unwrap_or_default();
        shown("docs/PARQUET.md", command.trim());
        if column == "level" {
            shown("docs/PARQUET.md", &said);
        }
    }
}
