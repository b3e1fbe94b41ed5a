//! The program `scan`, run on the sample day: the stretches that it prints are those that a plain walk over the entries
//! finds, which the second reader reads.

use std::fs;
use std::ops::Range;
use std::process::Command;

use commands::top;
use reader::calls::Rules;
use reader::delta::Delta;
use reader::dictionary::Dictionary;
use reader::runs::Runs;
use reader::signed::Column;

#[allow(dead_code, reason = "only the top is asked for")]
mod commands;
#[allow(dead_code, reason = "most of it is for the library's tests")]
mod reader;

const NEEDS_SCAN: &str = "this test needs the program scan, which `make run` builds";

const DAY: usize = 86_400;
const PAGE: usize = 16_384;

fn file(name: &str) -> Vec<u8> {
    fs::read(top().join(name)).unwrap_or_else(|error| panic!("{name}: {error}"))
}

/// Whether each second of the day is selected, from the entries of its six pages; not known where a page has none.
fn seconds<E>(
    page: impl Fn(usize, usize) -> Option<Vec<E>>,
    holds: impl Fn(E) -> bool,
) -> Vec<Option<bool>> {
    let mut seconds = Vec::new();
    for k in 1..=6 {
        let n = PAGE.min(DAY - seconds.len());
        match page(k, n) {
            Some(entries) => seconds.extend(entries.into_iter().map(|entry| Some(holds(entry)))),
            None => seconds.extend(vec![None; n]),
        }
    }
    assert_eq!(seconds.len(), DAY);
    seconds
}

fn level(k: usize, n: usize) -> Option<Vec<i32>> {
    Delta(file(&format!("data/day/level-{k}.delta")))
        .read(n)
        .ok()
}

fn landing(k: usize, n: usize) -> Option<Vec<i32>> {
    let dict = file("data/day/landing.dict");
    let page = file(&format!("data/day/landing-{k}.idx"));
    Dictionary { dict, page }.read(n).ok()
}

fn calls(k: usize, n: usize) -> Option<Vec<u32>> {
    Runs::read(&file(&format!("data/day/calls-{k}.runs")), 3, n).ok()
}

fn in_band(level: i32) -> bool {
    (110..=420).contains(&level)
}

/// First and last second of each stretch of selected seconds, in which no more than `join` known ones are not.
fn stretches(seconds: &[Option<bool>], join: usize) -> Vec<(usize, usize)> {
    let mut stretches: Vec<(usize, usize)> = Vec::new();
    for (second, _) in seconds
        .iter()
        .enumerate()
        .filter(|(_, is)| **is == Some(true))
    {
        match stretches.last_mut() {
            Some((_, last))
                if second - *last <= join + 1 && !seconds[*last..second].contains(&None) =>
            {
                *last = second;
            }
            _ => stretches.push((second, second)),
        }
    }
    stretches
}

fn clock(second: usize) -> String {
    let (hours, minutes) = (second / 3600, second / 60 % 60);
    format!("{hours:02}:{minutes:02}:{:02}", second % 60)
}

/// What is to be printed: a line for each stretch, and `?` behind an end that may reach further.
fn table(seconds: &[Option<bool>], join: usize) -> Vec<String> {
    let mark = |near: Range<usize>| match seconds[near].contains(&None) {
        true => '?',
        false => ' ',
    };
    let line = |(first, last): (usize, usize)| {
        let before = mark(first.saturating_sub(join + 1)..first);
        let behind = mark(last + 1..DAY.min(last + join + 2));
        let (from, to, length) = (clock(first), clock(last), last - first + 1);
        format!("{from}{before} {to}{behind} {length} s")
    };
    stretches(seconds, join).into_iter().map(line).collect()
}

/// Runs the program with words that the shell parts, and sees that it prints the table, and tells how long it is.
fn prints(words: &str, seconds: &[Option<bool>], join: usize) -> Vec<String> {
    let mut shell = Command::new("sh");
    shell.args(["-c", &format!("tools/run-program scan {words}")]);
    let output = shell.current_dir(top()).output().expect("sh is on PATH");
    let printed = String::from_utf8(output.stdout).expect("plain text");
    let told = String::from_utf8(output.stderr).expect("plain text");
    let table = table(seconds, join);
    let lines: Vec<&str> = printed.lines().collect();
    assert_eq!(lines, table, "{NEEDS_SCAN}: {words}\n{told}");
    let count = match table.len() {
        0 => String::new(),
        1 => ", in 1 stretch".to_owned(),
        n => format!(", in {n} stretches"),
    };
    assert!(told.contains(&count), "{words}: {told}");
    let is_whole = !seconds.contains(&None);
    assert_eq!(output.status.code(), Some(!is_whole as i32), "{words}");
    table
}

#[test]
fn the_landing_was_at_deck_4_from_when_to_when() {
    let at_deck_4 = seconds(landing, |deck| deck == 4);
    let words = "dictionary --spans data/day/landing.dict data/day/landing-*.idx equal 4";
    let table = prints(words, &at_deck_4, 0);
    assert_eq!(table.len(), 4);
    assert_eq!(table[0], "02:40:15  03:50:17  4203 s");
}

#[test]
fn the_band_has_its_noise_and_loses_it_where_gaps_are_closed() {
    let seconds = seconds(level, in_band);
    let words = "delta --spans data/day/level-*.delta between 110 420";
    assert_eq!(prints(words, &seconds, 0).len(), 945);
    for (join, count) in [(1, 355), (60, 3), (DAY, 1)] {
        let table = prints(&format!("{words} --join {join}"), &seconds, join);
        assert_eq!(table.len(), count, "--join {join}");
    }
}

#[test]
fn each_call_is_a_stretch() {
    let seconds = seconds(calls, |calls| calls >= 1);
    let words = "runs --width 3 --spans data/day/calls-*.runs at-least 1";
    assert_eq!(prints(words, &seconds, 0).len(), 5028);
}

#[test]
fn where_nothing_is_selected_nothing_is_printed() {
    let seconds = seconds(level, |level| level < -100);
    let words = "delta --spans data/day/level-*.delta less -100";
    assert!(prints(words, &seconds, 0).is_empty());
}

/// The ends of a table's lines that carry `?`.
fn unsure_ends(table: &[String]) -> usize {
    table.iter().map(|line| line.matches('?').count()).sum()
}

#[test]
fn a_page_that_is_not_answered_leaves_ends_unsure() {
    let cut = "data/tries/level-cut.delta";
    let page = |k, n| {
        if k == 3 {
            Delta(file(cut)).read(n).ok()
        } else {
            level(k, n)
        }
    };
    let known = seconds(page, in_band);
    let words = format!(
        "delta --spans data/day/level-[12].delta {cut} data/day/level-[456].delta between 110 420"
    );
    for join in [1, 60] {
        let table = prints(&format!("{words} --join {join}"), &known, join);
        assert_eq!(unsure_ends(&table), 2);
    }
    assert_eq!(unsure_ends(&prints(&words, &known, 0)), 2);
}

#[test]
fn an_end_is_unsure_where_its_gap_to_such_a_page_might_be_closed() {
    let page = |k, n| if k == 3 { None } else { calls(k, n) };
    let known = seconds(page, |calls| calls >= 1);
    let pages = "data/day/calls-[12].runs none.runs data/day/calls-[456].runs";
    let words = format!("runs --width 3 --spans {pages} at-least 1");
    assert_eq!(unsure_ends(&prints(&words, &known, 0)), 0);
    assert_eq!(
        unsure_ends(&prints(&format!("{words} --join 60"), &known, 60)),
        2
    );
}

#[test]
fn pages_that_are_not_named_leave_an_end_unsure() {
    let page = |k, n| if k > 2 { None } else { level(k, n) };
    let known = seconds(page, in_band);
    let words = "delta --spans data/day/level-[12].delta between 110 420";
    assert_eq!(unsure_ends(&prints(words, &known, 0)), 1);
}
