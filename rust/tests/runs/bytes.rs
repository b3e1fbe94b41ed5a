//! Any bytes as a stream: all short strings, and every change of one byte.

use super::streams::of_another_writer;
use crate::layouts::lengths::read;
use crate::layouts::pages::{entries, Kind};
use crate::reader::calls::Rules;
use crate::reader::runs::{Next, Runs};
use crate::support::calls::Calls;

/// A scan, an unpack and the first run of any bytes.
fn read_all(calls: &mut Calls, page: &[u8], width: u32, n: usize) {
    read::<Runs>(calls, page, width, n);
    calls.next(&Next {
        page,
        width,
        n,
        at: 0,
        covered: 0,
    });
}

/// All strings of at most two bytes.
fn short_strings() -> impl Iterator<Item = Vec<u8>> {
    let ones = (0..=255).map(|x| vec![x]);
    let twos = (0..=255).flat_map(|x| (0..=255).map(move |y| vec![x, y]));
    std::iter::once(vec![]).chain(ones).chain(twos)
}

#[test]
fn all_strings_of_two_bytes() {
    let mut calls = Calls::of::<Runs>("all strings of two bytes");
    for (width, n) in [
        (0, 0),
        (0, 9),
        (0, 200),
        (1, 5),
        (1, 64),
        (3, 3),
        (7, 60),
        (8, 8),
    ] {
        for page in short_strings() {
            read_all(&mut calls, &page, width, n);
        }
    }
    calls.finish();
}

/// Every other value at every place of small streams, of this library's writer and of others.
#[test]
fn every_change_of_one_byte() {
    let mut calls = Calls::of::<Runs>("streams with one byte changed");
    for width in 0..=32 {
        for n in [1, 10, 27] {
            let ours = Runs::page_of(
                &entries(Kind::Stretches, width, n, &mut calls.random),
                width,
            );
            let others = of_another_writer(width, n, &mut calls.random);
            for mut page in [ours, others] {
                page.truncate(48);
                for place in 0..page.len() {
                    let good = page[place];
                    for other in 1..=255 {
                        page[place] = good ^ other;
                        read_all(&mut calls, &page, width, n);
                    }
                    page[place] = good;
                }
            }
        }
    }
    calls.finish();
}

/// Every byte of small streams left out, and every byte there twice.
#[test]
fn every_byte_missing_and_doubled() {
    let mut calls = Calls::of::<Runs>("streams with a byte missing or doubled");
    for width in 0..=32 {
        for n in [1, 10, 27, 100] {
            let page = of_another_writer(width, n, &mut calls.random);
            for place in 0..page.len() {
                let mut missing = page.clone();
                let byte = missing.remove(place);
                read_all(&mut calls, &missing, width, n);
                let mut doubled = page.clone();
                doubled.insert(place, byte);
                read_all(&mut calls, &doubled, width, n);
            }
        }
    }
    calls.finish();
}

/// Bytes at random, most of them small, so that runs are short and some streams get far.
#[test]
fn bytes_at_random() {
    let mut calls = Calls::of::<Runs>("bytes at random");
    for _ in 0..100_000 {
        let random = &mut calls.random;
        let width = random.below(33) as u32;
        let n = random.below(100);
        let len = random.below(40);
        let mut byte = || random.bits() as u8 & random.pick(&[0x07, 0x1F, 0x83, 0xFF]);
        let page: Vec<u8> = (0..len).map(|_| byte()).collect();
        read_all(&mut calls, &page, width, n);
    }
    calls.finish();
}
