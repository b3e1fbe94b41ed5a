//! The sample day of data/day: its generator makes it again, and the examples that scan it tell what the recorder saw.

use std::fs;
use std::path::{Path, PathBuf};

use cahermisk::Comparison;
use scan_season::scan_day;

#[path = "../examples/make_day/columns.rs"]
mod columns;
#[path = "../examples/make_day/pages.rs"]
mod pages;
#[path = "../examples/scan_season.rs"]
#[allow(dead_code, reason = "main is for the example alone")]
mod scan_season;

fn day() -> PathBuf {
    Path::new(env!("CARGO_MANIFEST_DIR")).join("../data/day")
}

fn file(name: &str) -> Vec<u8> {
    fs::read(day().join(name)).unwrap_or_else(|error| panic!("data/day/{name}: {error}"))
}

#[test]
fn the_generator_makes_the_same_files() {
    let made = pages::files().expect("the library writes the day");
    for (name, bytes) in &made {
        assert!(
            file(name) == *bytes,
            "data/day/{name} is not what the generator makes"
        );
    }
    let there = fs::read_dir(day()).expect("data/day is there").count();
    assert_eq!(
        there,
        made.len(),
        "data/day holds a file that the generator does not make"
    );
}

/// The numbers of the entries that hold.
fn where_holds<T: Copy>(entries: &[T], holds: impl Fn(T) -> bool) -> Vec<usize> {
    (0..entries.len()).filter(|&i| holds(entries[i])).collect()
}

#[test]
fn the_level_is_420_at_noon_and_110_at_five() {
    let seconds = scan_day::level(&day(), Comparison::between(110, 420)).expect("a good day");
    let level = columns::level();
    assert_eq!((level[5 * 3600], level[12 * 3600]), (110, 420));
    assert_eq!(
        seconds,
        where_holds(&level, |level| (110..=420).contains(&level))
    );
    assert!(seconds.contains(&(5 * 3600)) && seconds.contains(&(12 * 3600)));
}

#[test]
fn the_landing_lies_at_each_deck_as_recorded() {
    let landing = columns::landing();
    for deck in 1..=6 {
        let seconds = scan_day::landing(&day(), Comparison::equal(deck.into()));
        let at_deck = where_holds(&landing, |index| columns::DECKS[index as usize] == deck);
        assert_eq!(at_deck.is_empty(), !columns::DECKS.contains(&deck));
        assert_eq!(seconds.expect("a good day"), at_deck, "deck {deck}");
    }
}

#[test]
fn calls_and_busy_lifts_are_as_recorded() {
    let called = scan_day::calls(&day(), Comparison::greater_or_equal(1)).expect("a good day");
    assert_eq!(called, where_holds(&columns::calls(), |calls| calls >= 1));
    let full = scan_day::busy(&day(), Comparison::equal(15)).expect("a good day");
    assert_eq!(full, where_holds(&columns::busy(), |busy| busy == 15));
    assert!(!called.is_empty() && !full.is_empty());
}

#[test]
fn the_example_tells_how_many_seconds_and_when() {
    let lines = [
        "level from 110 to 420 cm: 74559 seconds, the first at 00:00:00, the last at 23:59:59",
        "landing at deck 4: 16812 seconds, the first at 02:40:15, the last at 21:19:45",
        "a lift called: 7032 seconds, the first at 06:00:44, the last at 22:58:20",
        "all 15 lifts busy: 12814 seconds, the first at 06:01:31, the last at 22:49:26",
    ];
    assert_eq!(scan_day::report(&day()).expect("a good day"), lines);
}

#[test]
fn the_example_tells_which_page_is_refused() {
    let folder = Path::new(env!("CARGO_TARGET_TMPDIR")).join("day-cut");
    fs::create_dir_all(&folder).expect("a folder for one page");
    let page = file("level-1.delta");
    fs::write(folder.join("level-1.delta"), &page[..page.len() - 1]).expect("a page cut short");
    let error = scan_day::report(&folder).expect_err("a page cut short");
    let told = "level-1.delta: refused with code 5: input ends too early";
    assert!(error.to_string().ends_with(told), "{error}");
}

/// Every thread has its part of the pages, also where there are more threads than pages.
#[test]
fn a_season_has_the_seconds_of_its_days() {
    let season = scan_season::season(&day(), 3).expect("the sample day");
    let entries: usize = season.iter().map(|page| page.n).sum();
    assert_eq!((season.len(), entries), (3 * 24, 3 * 4 * 86_400));
    for threads in [1, 2, 5, 100] {
        let selected = scan_season::selected(&season, threads);
        assert_eq!(selected, Ok(3 * (74_559 + 16_812 + 7_032 + 12_814)));
    }
}

#[test]
fn a_season_tells_which_page_is_refused() {
    let folder = Path::new(env!("CARGO_TARGET_TMPDIR")).join("season-cut");
    fs::create_dir_all(&folder).expect("a folder for a day");
    for (name, bytes) in pages::files().expect("the library writes the day") {
        fs::write(folder.join(name), bytes).expect("a page");
    }
    let busy = file("busy-3.planes");
    fs::write(folder.join("busy-3.planes"), &busy[1..]).expect("a page cut short");
    let season = scan_season::season(&folder, 2).expect("all files are there");
    for threads in [1, 2] {
        let told = scan_season::selected(&season, threads).expect_err("a page cut short");
        assert!(
            told.ends_with("busy-3.planes: refused with code 6: input left over"),
            "{told}"
        );
    }
}
