//! Scans the sample day of data/day, four columns in four layouts: `cargo run --example scan_day [FOLDER]`.
//! A column has an entry for each second; its pages are files of at most 16,384 entries each.

use std::error::Error;
use std::path::{Path, PathBuf};
use std::process::ExitCode;
use std::{env, fs};

use cahermisk::{delta, dictionary, runs, vertical, Bitmap, Comparison, Refusal, MAX_ENTRIES};

const SECONDS: usize = 86_400;

/// Bits of a second's calls, and of a count of busy lifts.
pub const CALLS_WIDTH: u32 = 3;
pub const BUSY_WIDTH: u32 = 4;

/// The seconds that a scan selected, or why it could not.
type Seconds = Result<Vec<usize>, Box<dyn Error>>;

pub fn read(file: &Path) -> Result<Vec<u8>, String> {
    fs::read(file).map_err(|error| format!("{}: {error}", file.display()))
}

/// The entries from the second `first` on.
pub struct Page {
    pub file: PathBuf,
    pub bytes: Vec<u8>,
    pub first: usize,
    pub n: usize,
}

/// A column page by page, NAME-1.KIND and so on.
pub fn pages<'a>(
    day: &'a Path,
    name: &'a str,
    kind: &'a str,
) -> impl Iterator<Item = Result<Page, String>> + 'a {
    let firsts = (0..SECONDS).step_by(MAX_ENTRIES);
    (1..).zip(firsts).map(move |(number, first)| {
        let file = day.join(format!("{name}-{number}.{kind}"));
        Ok(Page {
            bytes: read(&file)?,
            file,
            first,
            n: MAX_ENTRIES.min(SECONDS - first),
        })
    })
}

pub fn refused(file: &Path, refusal: Refusal) -> String {
    format!("{}: refused with {refusal}", file.display())
}

/// Scans a column page by page.
fn column(
    day: &Path,
    name: &str,
    kind: &str,
    scan: impl Fn(&[u8], usize) -> Result<Bitmap, Refusal>,
) -> Seconds {
    let mut seconds = Vec::new();
    for page in pages(day, name, kind) {
        let page = page?;
        let selection = scan(&page.bytes, page.n);
        let selection = selection.map_err(|refusal| refused(&page.file, refusal))?;
        seconds.extend(selection.selected().map(|i| page.first + i));
    }
    Ok(seconds)
}

/// The water level, in centimetres: delta pages.
pub fn level(day: &Path, band: Comparison) -> Seconds {
    column(day, "level", "delta", |page, n| {
        delta::scan_to_bitmap(page, n, band)
    })
}

/// The deck that the landing lies at: index pages, and one dictionary for all of them.
pub fn landing(day: &Path, deck: Comparison) -> Seconds {
    let decks = read(&day.join("landing.dict"))?;
    column(day, "landing", "idx", |page, n| {
        dictionary::scan_to_bitmap(&decks, page, n, deck)
    })
}

/// The lift calls: run streams.
pub fn calls(day: &Path, calls: Comparison) -> Seconds {
    column(day, "calls", "runs", |page, n| {
        runs::scan_to_bitmap(page, CALLS_WIDTH, n, calls)
    })
}

/// The words of a file of bit planes, low byte first.
pub fn words(page: &[u8]) -> Result<Vec<u64>, Refusal> {
    let word = |bytes: &[u8]| bytes.try_into().map(u64::from_le_bytes);
    let words: Result<_, _> = page.chunks(8).map(word).collect();
    words.map_err(|_| Refusal::InputLeftOver)
}

/// How many lifts are busy: bit planes.
pub fn busy(day: &Path, lifts: Comparison) -> Seconds {
    column(day, "busy", "planes", |page, n| {
        vertical::scan_to_bitmap(&words(page)?, BUSY_WIDTH, n, lifts)
    })
}

/// A second of the day as hh:mm:ss.
fn clock(second: usize) -> String {
    let (hour, minute) = (second / 3600, second / 60 % 60);
    format!("{hour:02}:{minute:02}:{:02}", second % 60)
}

fn line(what: &str, seconds: &[usize]) -> String {
    match seconds {
        [] => format!("{what}: never"),
        [first, .., last] => format!(
            "{what}: {} seconds, the first at {}, the last at {}",
            seconds.len(),
            clock(*first),
            clock(*last)
        ),
        [only] => format!("{what}: one second, at {}", clock(*only)),
    }
}

/// What the day has to say, a line for each column; or the first page that is missing or refused.
pub fn report(day: &Path) -> Result<[String; 4], Box<dyn Error>> {
    let level = level(day, Comparison::between(110, 420))?;
    let landing = landing(day, Comparison::equal(4))?;
    let calls = calls(day, Comparison::greater_or_equal(1))?;
    let busy = busy(day, Comparison::equal(15))?;
    Ok([
        line("level from 110 to 420 cm", &level),
        line("landing at deck 4", &landing),
        line("a lift called", &calls),
        line("all 15 lifts busy", &busy),
    ])
}

fn main() -> ExitCode {
    let sample = || Path::new(env!("CARGO_MANIFEST_DIR")).join("../data/day");
    let day = env::args_os().nth(1).map_or_else(sample, PathBuf::from);
    match report(&day) {
        Ok(lines) => {
            println!("{}", lines.join("\n"));
            ExitCode::SUCCESS
        }
        Err(error) => {
            eprintln!("scan_day: {error}");
            ExitCode::FAILURE
        }
    }
}
