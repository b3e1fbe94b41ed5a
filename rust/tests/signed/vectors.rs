//! The calls of data/vectors: document 01's examples, Parquet's, easy errors, and other makers' pages.

use super::layout::Signed;
use crate::reader::signed::{Scan, Unpack};
use crate::support::calls::Calls;
use crate::support::row::{decimal, hexadecimal, Row};
use crate::support::vectors::{call_every_row, Given};

/// Makes the call of a row under every filling; an error tells what is malformed in it.
fn call<C: Signed>(calls: &mut Calls, line: &str) -> Result<(), String> {
    let mut row = Row::new(line);
    match row.word()? {
        "scan" => scan::<C>(calls, &mut row, line),
        "unpack" => unpack::<C>(calls, &mut row, line),
        name => C::other_call(calls, name, &mut row, line),
    }
}

fn scan<C: Signed>(calls: &mut Calls, row: &mut Row, line: &str) -> Result<(), String> {
    let (n, op) = (row.number("n")?, row.number("op")?);
    let (a, b) = (row.number("a")?, row.number("b")?);
    let column = C::of_row(row)?;
    let given = Given::read(row, "bitmap", hexadecimal)?;
    given.check(line, |bitmap| {
        calls.scan_signed(&Scan {
            column: &column,
            n,
            op,
            a,
            b,
            bitmap,
        })
    });
    Ok(())
}

fn unpack<C: Signed>(calls: &mut Calls, row: &mut Row, line: &str) -> Result<(), String> {
    let n = row.number("n")?;
    let column = C::of_row(row)?;
    let given = Given::read(row, "entries", decimal)?;
    given.check(line, |entries| {
        calls.unpack_signed(&Unpack {
            column: &column,
            n,
            entries,
        })
    });
    Ok(())
}

pub fn every_row<C: Signed>() {
    call_every_row(Calls::of_signed::<C>("vectors"), C::NAME, call::<C>);
}

/// A good row, and what makes it none of the layout: a part of it with what stands there instead.
pub fn malformed<C: Signed>(good: &str, changes: &[(&str, &str)]) {
    let mut calls = Calls::of_signed::<C>("vectors, malformed");
    assert_eq!(call::<C>(&mut calls, good), Ok(()));
    for (part, instead) in changes {
        assert!(good.contains(part), "'{part}' is not in the row");
        let bad = good.replacen(part, instead, 1);
        assert!(
            call::<C>(&mut calls, &bad).is_err(),
            "taken for good: {bad}"
        );
    }
    calls.finish();
}
