//! Runs that begin at each bit of a byte and end at each, also past n.

use super::streams::{some_packed_run, some_repeated_run};
use crate::layouts::lengths::read;
use crate::reader::runs::Runs;
use crate::support::calls::Calls;

/// A repeated run of any length up to two bytes of the bitmap, and then a packed run that passes n by 0 to 7. The
/// groups are few, or about as many as the library compares at once.
#[test]
fn packed_runs_from_each_bit_on() {
    let mut calls = Calls::of::<Runs>("packed runs from each bit on");
    for width in 0..=32 {
        for before in 0..=17 {
            for groups in [1, 2, 3, 8, 9, 55, 56, 57, 113] {
                let random = &mut calls.random;
                let mut page = Vec::new();
                if before > 0 {
                    page.extend(some_repeated_run(width, before, random));
                }
                page.extend(some_packed_run(width, groups, random));
                let past = random.below(8);
                let n = before + 8 * groups - past;
                assert_eq!(read::<Runs>(&mut calls, &page, width, n), [0; 2]);
            }
        }
    }
    calls.finish();
}

/// Past n by 0 to 7 is good, and by 8 it is 11.
#[test]
fn the_last_run_past_n() {
    let mut calls = Calls::of::<Runs>("last runs past n");
    for width in 0..=32 {
        for groups in [1, 2, 63, 64] {
            let page = some_packed_run(width, groups, &mut calls.random);
            for past in 0..=9 {
                let n = (8usize * groups).saturating_sub(past);
                let code = match past {
                    _ if n == 0 => 6,
                    0..=7 => 0,
                    _ => 11,
                };
                assert_eq!(read::<Runs>(&mut calls, &page, width, n), [code; 2]);
            }
        }
        for count in [1, 2, 9, 64] {
            let page = some_repeated_run(width, count, &mut calls.random);
            for (n, code) in [
                (count - 1, if count == 1 { 6 } else { 11 }),
                (count, 0),
                (count + 1, 5),
            ] {
                assert_eq!(read::<Runs>(&mut calls, &page, width, n), [code; 2]);
            }
        }
    }
    calls.finish();
}

/// Repeated runs alone, of all small lengths after one another: each begins at another bit.
#[test]
fn repeated_runs_from_each_bit_on() {
    let mut calls = Calls::of::<Runs>("repeated runs from each bit on");
    for width in 0..=32 {
        for first in 1..=17 {
            for second in 1..=33 {
                let random = &mut calls.random;
                let mut page = some_repeated_run(width, first, random);
                page.extend(some_repeated_run(width, second, random));
                page.extend(some_repeated_run(width, 3, random));
                let n = first + second + 3;
                assert_eq!(read::<Runs>(&mut calls, &page, width, n), [0; 2]);
            }
        }
    }
    calls.finish();
}
