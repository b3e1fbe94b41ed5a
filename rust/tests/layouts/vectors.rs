//! The calls of data/vectors: document 01's examples, its easy errors, and other makers' pages.

use super::layout::Layout;
use crate::reader::calls::{Pack, Scan, Unpack};
use crate::reader::Unit;
use crate::support::calls::Calls;
use crate::support::row::{decimal, hexadecimal, Row};
use crate::support::vectors::{call_every_row, Given};

/// Makes the call of a row under every filling; an error tells what is malformed in it.
fn call<L: Layout>(calls: &mut Calls, line: &str) -> Result<(), String> {
    let mut row = Row::new(line);
    match row.word()? {
        "scan" => scan::<L>(calls, &mut row, line),
        "unpack" => unpack::<L>(calls, &mut row, line),
        "pack" => pack::<L>(calls, &mut row, line),
        name => L::other_call(calls, name, &mut row, line),
    }
}

fn scan<L: Layout>(calls: &mut Calls, row: &mut Row, line: &str) -> Result<(), String> {
    let (width, n) = (row.number("width")?, row.number("n")?);
    let (op, a, b) = (row.number("op")?, row.number("a")?, row.number("b")?);
    let page = row.list("page", hexadecimal)?;
    let given = Given::read(row, "bitmap", hexadecimal)?;
    given.check(line, |bitmap| {
        calls.scan::<L>(&Scan {
            page: &page,
            width,
            n,
            op,
            a,
            b,
            bitmap,
        })
    });
    Ok(())
}

fn unpack<L: Layout>(calls: &mut Calls, row: &mut Row, line: &str) -> Result<(), String> {
    let (width, n) = (row.number("width")?, row.number("n")?);
    let page = row.list("page", hexadecimal)?;
    let given = Given::read(row, "entries", decimal)?;
    given.check(line, |entries| {
        calls.unpack::<L>(&Unpack {
            page: &page,
            width,
            n,
            entries,
        })
    });
    Ok(())
}

fn pack<L: Layout>(calls: &mut Calls, row: &mut Row, line: &str) -> Result<(), String> {
    let width = row.number("width")?;
    let entries = row.list("entries", decimal)?;
    let given = Given::read(row, "page", hexadecimal)?;
    given.check(line, |page| {
        calls.pack::<L>(&Pack {
            entries: &entries,
            width,
            page,
        })
    });
    Ok(())
}

pub fn every_row<L: Layout>() {
    call_every_row(Calls::of::<L>("vectors"), L::NAME, call::<L>);
}

/// A good row, ONE standing for the page of one entry that is 1, and what makes it malformed: a part of it with
/// what stands there instead.
const GOOD: &str = "scan width 1 n 1 op 0 a 1 b 0 page ONE -> code 0 number 1 bitmap 01 .";
const MALFORMED: [(&str, &str); 31] = [
    ("scan", "skim"),
    ("scan", ""),
    ("width 1 ", ""),
    ("width 1", "width"),
    ("width 1", "width one"),
    ("width 1", "width +1"),
    ("width 1", "width 01"),
    ("width 1", "width 4294967296"),
    ("n 1", "n -1"),
    ("a 1", "a 9223372036854775808"),
    ("op 0 a 1", "a 1 op 0"),
    (" page", "  page"),
    ("page", "Page"),
    ("ONE", "1"),
    ("ONE", "0ONE"),
    ("ONE", "ONE,"),
    ("ONE", "."),
    ("ONE", "ONE*"),
    ("ONE", "ONE*01"),
    ("ONE", "ONE*0"),
    ("ONE", "ONE*1*1"),
    ("->", "=>"),
    ("-> ", ""),
    ("code 0 ", ""),
    ("number 1 ", ""),
    ("bitmap 01 .", "bitmap 1 ."),
    ("bitmap 01 .", "bitmap 01 0g"),
    ("bitmap 01 .", "bitmap 01 . "),
    ("bitmap 01 .", "bitmap 01 -> 01"),
    ("bitmap 01 .", "entries 1"),
    (" bitmap 01 .", ""),
];

/// A row that is malformed in any place is an error, and no call is made of it.
pub fn malformed_lines<L: Layout>() {
    let mut calls = Calls::of::<L>("vectors, malformed");
    let page = L::page_of(&[1], 1).into_iter();
    let digits = |unit: L::Unit| format!("{:0digits$X}", unit.number(), digits = L::Unit::BITS / 4);
    let one = page.map(digits).collect::<Vec<_>>().join(" ");
    let good = GOOD.replace("ONE", &one);
    assert_eq!(call::<L>(&mut calls, &good), Ok(()));
    for (part, instead) in MALFORMED {
        assert!(GOOD.contains(part), "'{part}' is not in the row");
        let bad = GOOD.replacen(part, instead, 1).replace("ONE", &one);
        let made = call::<L>(&mut calls, &bad);
        assert!(made.is_err(), "taken for good: {bad}");
    }
    calls.finish();
}
