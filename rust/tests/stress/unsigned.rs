//! Calls of the layouts whose entries have a width.

use super::damage::{about, any_count, any_operator, damaged, room};
use super::tally::Tally;
use crate::layouts::layout::Layout;
use crate::layouts::pages::{constants, entries, page, KINDS};
use crate::reader::calls::{Pack, Scan, Unpack};
use crate::reader::runs::{Next, Runs};
use crate::support::calls::Calls;
use crate::support::random::Random;

/// A page and what is said about it, with constants about its entries.
struct Sample<U> {
    page: Vec<U>,
    width: u32,
    n: usize,
    constants: Vec<i64>,
}

fn any_width(random: &mut Random) -> u32 {
    random.below(33) as u32
}

/// A good page of n entries.
fn good<L: Layout>(width: u32, n: usize, random: &mut Random) -> Vec<L::Unit> {
    let kind = random.pick(&KINDS);
    page::<L>(kind, width, n, random)
}

/// Half of the pages are damaged, and of all now and then a number is one off.
fn sample<L: Layout>(random: &mut Random) -> Sample<L::Unit> {
    let (width, n) = (any_width(random), any_count(random));
    let mut page = good::<L>(width, n, random);
    let entries = L::read(&page, width, n).expect("a good page");
    let constants = constants(&entries, width, random);
    if random.once_in(2) {
        let (width, n) = (any_width(random), random.below(40));
        let other = good::<L>(width, n, random);
        page = damaged(&page, &other, random);
    }
    Sample {
        page,
        width: about(width as usize, random) as u32,
        n: about(n, random),
        constants,
    }
}

fn scan<L: Layout>(sample: &Sample<L::Unit>, calls: &mut Calls, tally: &mut Tally) {
    let random = &mut calls.random;
    let room = room(sample.n.div_ceil(8), random);
    let bitmap = random.units(room);
    let call = Scan {
        page: &sample.page,
        width: sample.width,
        n: sample.n,
        op: any_operator(random),
        a: random.pick(&sample.constants),
        b: random.pick(&sample.constants),
        bitmap: &bitmap,
    };
    tally.count("scan", calls.scan::<L>(&call).code);
}

fn unpack<L: Layout>(sample: &Sample<L::Unit>, calls: &mut Calls, tally: &mut Tally) {
    let filling = calls.random.bits() as u32;
    let call = Unpack {
        page: &sample.page,
        width: sample.width,
        n: sample.n,
        entries: &vec![filling; room(sample.n, &mut calls.random)],
    };
    tally.count("unpack", calls.unpack::<L>(&call).code);
}

fn pack<L: Layout>(calls: &mut Calls, tally: &mut Tally) {
    let random = &mut calls.random;
    let (width, count) = (any_width(random), any_count(random));
    let (n, kind) = (about(count, random), random.pick(&KINDS));
    let mut list = entries(kind, width, n, random);
    if n > 0 && random.once_in(8) {
        list[random.below(n)] = random.bits() as u32;
    }
    let width = about(width as usize, random) as u32;
    let room = room(L::page_of(&list, width).len(), random);
    let call = Pack {
        entries: &list,
        width,
        page: &random.units(room),
    };
    tally.count("pack", calls.pack::<L>(&call).code);
}

pub fn trial<L: Layout>(calls: &mut Calls, tally: &mut Tally) {
    let sample = sample::<L>(&mut calls.random);
    scan::<L>(&sample, calls, tally);
    unpack::<L>(&sample, calls, tally);
    pack::<L>(calls, tally);
}

/// Also some runs of a page by themselves, one after another up to the first that is refused, and one anywhere.
pub fn trial_of_runs(calls: &mut Calls, tally: &mut Tally) {
    trial::<Runs>(calls, tally);
    let sample = sample::<Runs>(&mut calls.random);
    let mut next = |calls: &mut Calls, at, covered| {
        let run = calls.next(&Next {
            page: &sample.page,
            width: sample.width,
            n: sample.n,
            at,
            covered,
        });
        tally.count("next", run.code);
        run
    };
    let (mut at, mut covered) = (0, 0);
    for _ in 0..8 {
        let run = next(calls, at, covered);
        if run.code > 0 {
            break;
        }
        (at, covered) = (run.next, covered + run.length);
    }
    let at = calls.random.below(sample.page.len() + 2);
    let covered = calls.random.below(sample.n + 2);
    next(calls, at, covered);
}
