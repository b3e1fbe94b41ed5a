//! Scans a season on one core and on all of them: `cargo run --release --example scan_season [FOLDER]`.
//! Its days are 180 copies of the sample day of data/day, four columns in four layouts.

use std::num::NonZero;
use std::path::{Path, PathBuf};
use std::process::ExitCode;
use std::sync::atomic::{AtomicUsize, Ordering};
use std::sync::Arc;
use std::thread;
use std::time::{Duration, Instant};

use cahermisk::{delta, dictionary, runs, vertical, Bitmap, Comparison, Refusal, MAX_ENTRIES};

use scan_day::{pages, read, refused, words, BUSY_WIDTH, CALLS_WIDTH};

#[path = "scan_day.rs"]
#[allow(dead_code, reason = "a day is scanned by the other example")]
pub mod scan_day;

const DAYS: usize = 180;
/// The fastest of so many is told.
const PASSES: usize = 20;

/// The scan of one page into a bitmap that is lent: how many entries are selected.
type Scan = Box<dyn Fn(&mut [u8]) -> Result<usize, Refusal> + Sync>;

/// A page, and what is asked of it.
pub struct Asked {
    file: PathBuf,
    pub n: usize,
    scan: Scan,
}

/// The pages of a column, each with its scan.
fn column(
    day: &Path,
    name: &str,
    kind: &str,
    ask: impl Fn(Vec<u8>, usize) -> Scan,
) -> Result<Vec<Asked>, String> {
    let asked = pages(day, name, kind).map(|page| {
        let page = page?;
        Ok(Asked {
            file: page.file,
            n: page.n,
            scan: ask(page.bytes, page.n),
        })
    });
    asked.collect()
}

/// The pages of a day, with what scan_day asks of each column.
fn day(folder: &Path) -> Result<Vec<Asked>, String> {
    let decks: Arc<[u8]> = read(&folder.join("landing.dict"))?.into();
    let level = column(folder, "level", "delta", |page, n| {
        let band = Comparison::between(110, 420);
        Box::new(move |bitmap| delta::scan(&page, n, band, bitmap))
    })?;
    let landing = column(folder, "landing", "idx", |page, n| {
        let (decks, deck) = (decks.clone(), Comparison::equal(4));
        Box::new(move |bitmap| dictionary::scan(&decks, &page, n, deck, bitmap))
    })?;
    let calls = column(folder, "calls", "runs", |page, n| {
        let any = Comparison::greater_or_equal(1);
        Box::new(move |bitmap| runs::scan(&page, CALLS_WIDTH, n, any, bitmap))
    })?;
    let busy = column(folder, "busy", "planes", |page, n| {
        let (words, all) = (words(&page), Comparison::equal(15));
        Box::new(move |bitmap| match &words {
            Ok(words) => vertical::scan(words, BUSY_WIDTH, n, all, bitmap),
            Err(refusal) => Err(*refusal),
        })
    })?;
    Ok([level, landing, calls, busy]
        .into_iter()
        .flatten()
        .collect())
}

/// So many copies of a day, each in its own memory.
pub fn season(folder: &Path, days: usize) -> Result<Vec<Asked>, String> {
    let days: Result<Vec<_>, _> = (0..days).map(|_| day(folder)).collect();
    Ok(days?.into_iter().flatten().collect())
}

/// How many entries are selected. Each thread scans the next page that no other has taken, until there is
/// none.
pub fn selected(season: &[Asked], threads: usize) -> Result<usize, String> {
    let taken = AtomicUsize::new(0);
    let work = || {
        let mut bitmap = [0; Bitmap::bytes_for(MAX_ENTRIES)];
        let mut count = 0;
        while let Some(page) = season.get(taken.fetch_add(1, Ordering::Relaxed)) {
            let scanned = (page.scan)(&mut bitmap);
            count += scanned.map_err(|refusal| refused(&page.file, refusal))?;
        }
        Ok(count)
    };
    thread::scope(|scope| {
        let threads: Vec<_> = (0..threads).map(|_| scope.spawn(work)).collect();
        let counts = threads.into_iter().map(|thread| thread.join());
        counts.map(|count| count.expect("no scan panics")).sum()
    })
}

/// The time of the fastest pass.
fn time(season: &[Asked], threads: usize) -> Result<Duration, String> {
    let pass = |_| {
        let start = Instant::now();
        selected(season, threads).map(|_| start.elapsed())
    };
    let passes: Result<Vec<Duration>, String> = (0..PASSES).map(pass).collect();
    Ok(passes?.into_iter().min().unwrap_or_default())
}

/// Prints the time of so many threads, and gives it in seconds.
fn tell(season: &[Asked], entries: usize, threads: usize) -> Result<f64, String> {
    let seconds = time(season, threads)?.as_secs_f64();
    let millions = entries as f64 / 1e6 / seconds;
    println!("threads {threads}: {seconds:.4} seconds, {millions:.0} million entries a second");
    Ok(seconds)
}

fn report(folder: &Path) -> Result<(), String> {
    let season = season(folder, DAYS)?;
    let entries = season.iter().map(|page| page.n).sum();
    let (pages, selected) = (season.len(), selected(&season, 1)?);
    println!("{DAYS} days, {pages} pages: {selected} of {entries} entries selected");
    println!("the fastest of {PASSES} passes:");
    let one = tell(&season, entries, 1)?;
    let cores = thread::available_parallelism().map_or(1, NonZero::get);
    let all = tell(&season, entries, cores)?;
    println!("on all cores {:.2} times as fast", one / all);
    Ok(())
}

fn main() -> ExitCode {
    let sample = || Path::new(env!("CARGO_MANIFEST_DIR")).join("../data/day");
    let folder = std::env::args_os()
        .nth(1)
        .map_or_else(sample, PathBuf::from);
    match report(&folder) {
        Ok(()) => ExitCode::SUCCESS,
        Err(error) => {
            eprintln!("scan_season: {error}");
            ExitCode::FAILURE
        }
    }
}
