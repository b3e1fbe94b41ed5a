//! Random and damaged pages of all layouts, and spans, for some minutes, each call beside the second reader: `make stress`.
//! Not in the gate. The same seed makes the same calls of each layout, as many as there is time for.

mod damage;
mod signed;
mod spans;
mod tally;
mod unsigned;

use std::env;
use std::time::{Duration, Instant, SystemTime, UNIX_EPOCH};

use crate::reader::dictionary::Dictionary;
use crate::reader::horizontal::Horizontal;
use crate::reader::vertical::Vertical;
use crate::support::calls::{say, Calls};
use crate::support::random::asked_seed;
use tally::Tally;

const SECONDS_VARIABLE: &str = "CAHERMISK_STRESS_SECONDS";
const SECONDS: u64 = 120;

/// How long a layout goes on before the next: each has numbers at random of its own, and so makes the same calls
/// whatever the turns are.
const TURN: Duration = Duration::from_millis(20);

/// One page of a layout, good or damaged, and calls with it.
type Trial = fn(&mut Calls, &mut Tally);

const LAYOUTS: [(&str, Trial); 6] = [
    ("horizontal", unsigned::trial::<Horizontal>),
    ("vertical", unsigned::trial::<Vertical>),
    ("runs", unsigned::trial_of_runs),
    ("delta", signed::trial_of_delta),
    ("dictionary", signed::trial::<Dictionary>),
    ("spans", spans::trial),
];

/// The seed asked for, or else one from the clock.
fn seed() -> u64 {
    let clock = || SystemTime::now().duration_since(UNIX_EPOCH);
    asked_seed().unwrap_or_else(|| clock().expect("a clock past 1970").as_nanos() as u64)
}

/// How long to go on.
fn time() -> Duration {
    let seconds = match env::var(SECONDS_VARIABLE) {
        Ok(text) => text
            .parse()
            .unwrap_or_else(|_| panic!("{SECONDS_VARIABLE}={text} is no number of seconds")),
        Err(_) => SECONDS,
    };
    Duration::from_secs(seconds)
}

#[test]
#[ignore = "takes minutes: make stress"]
fn stress() {
    let (seed, time) = (seed(), time());
    // Said first too: reading past a fence ends the test by a signal.
    say(&format!("{time:?} with CAHERMISK_SEED={seed:#x}"));
    let mut layouts = LAYOUTS.map(|(name, trial)| {
        let calls = Calls::with_fences(format!("{name} stress"), seed);
        (name, trial, calls, Tally::default())
    });
    let start = Instant::now();
    while start.elapsed() < time {
        for (_, trial, calls, tally) in &mut layouts {
            let turn = Instant::now();
            while turn.elapsed() < TURN {
                trial(calls, tally);
            }
        }
    }
    let mut made = 0;
    for (name, _, _, tally) in &layouts {
        tally.lines(name).iter().for_each(|line| say(line));
        made += tally.made();
    }
    say(&format!(
        "0 mismatches in {made} calls (CAHERMISK_SEED={seed:#x})"
    ));
    assert!(made > 0, "{time:?} are too short for a call");
}
