//! One run asked for by itself, beside the second reader.

use crate::raw::{cahermisk_runs_next, RunAnswer};
use crate::reader::runs::{next, Body, Next};
use crate::support::calls::{clipped, Calls};
use crate::support::row::{hexadecimal, Row};

/// The numbers that the header names, of what the second reader found. A refused run has its code alone.
fn answer_of(found: Result<(Body, usize), u32>) -> RunAnswer {
    match found {
        Err(code) => RunAnswer {
            code,
            ..RunAnswer::default()
        },
        Ok((Body::Repeated(length, value), next)) => RunAnswer {
            length,
            value,
            next,
            ..RunAnswer::default()
        },
        Ok((Body::Packed(groups, part), next)) => RunAnswer {
            kind: 1,
            length: 8 * groups,
            next,
            body_at: part.start,
            body_len: part.len(),
            ..RunAnswer::default()
        },
    }
}

impl Calls {
    pub fn next(&mut self, call: &Next) -> RunAnswer {
        self.check_reading(
            call.page,
            answer_of(next(call)),
            // SAFETY: the place is valid for its length.
            |page| unsafe {
                cahermisk_runs_next(
                    page.ptr(),
                    page.len(),
                    call.width,
                    call.n,
                    call.at,
                    call.covered,
                )
            },
            || {
                format!(
                    "next: width {}, n {}, at {}, covered {}, page {}",
                    call.width,
                    call.n,
                    call.at,
                    call.covered,
                    clipped(call.page)
                )
            },
        )
    }
}

/// Makes the call of a row of data/vectors. Behind `body` stand the bytes that are handed back.
pub fn next_of_a_row(calls: &mut Calls, row: &mut Row, line: &str) -> Result<(), String> {
    let (width, n) = (row.number("width")?, row.number("n")?);
    let (at, covered) = (row.number("at")?, row.number("covered")?);
    let page = row.list("page", hexadecimal::<u8>)?;
    row.arrow()?;
    let code: u32 = row.number("code")?;
    let (kind, length): (u32, usize) = (row.number("kind")?, row.number("length")?);
    let (value, next): (u32, usize) = (row.number("value")?, row.number("next")?);
    let body = row.list("body", hexadecimal)?;
    row.end()?;
    let run = calls.next(&Next {
        page: &page,
        width,
        n,
        at,
        covered,
    });
    let given = (run.code, run.kind, run.length, run.value, run.next);
    assert_eq!(given, (code, kind, length, value, next), "{line}");
    assert_eq!(page[run.body_at..][..run.body_len], body, "{line}");
    Ok(())
}
