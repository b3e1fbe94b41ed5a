//! Delta pages.

mod bytes;
mod calls;
mod faults;
pub mod pages;
mod reader;
mod rows;
mod shapes;
mod writer;

use crate::raw::{cahermisk_delta_scan, cahermisk_delta_unpack, Answer};
use crate::reader::delta::{page_of, Delta};
use crate::signed::layout::{Place, Signed};
use crate::signed::tests_of_signed;
use crate::support::calls::Calls;
use crate::support::random::Random;
use crate::support::row::{hexadecimal, Row};

impl Signed for Delta {
    const NAME: &'static str = "delta";
    const COUNTS: &'static [usize] = &pages::COUNTS;

    fn of(entries: &[i32]) -> Delta {
        Delta(page_of(entries))
    }

    fn any(width: u32, n: usize, random: &mut Random) -> Delta {
        let entries = pages::entries(width, n, random);
        let shape = pages::any_shape(random);
        Delta(pages::of_another_writer(&entries, shape, random))
    }

    fn inputs(&self) -> Vec<&[u8]> {
        vec![&self.0]
    }

    fn of_inputs(inputs: &[&[u8]]) -> Delta {
        Delta(inputs[0].to_vec())
    }

    unsafe fn scan(
        inputs: &[Place],
        n: usize,
        op: u32,
        a: i64,
        b: i64,
        bitmap: *mut u8,
        room: usize,
    ) -> Answer {
        let (page, len) = inputs[0];
        cahermisk_delta_scan(page, len, n, op, a, b, bitmap, room)
    }

    unsafe fn unpack(inputs: &[Place], n: usize, entries: *mut i32, room: usize) -> Answer {
        let (page, len) = inputs[0];
        cahermisk_delta_unpack(page, len, n, entries, room)
    }

    fn of_row(row: &mut Row) -> Result<Delta, String> {
        Ok(Delta(row.list("page", hexadecimal)?))
    }

    fn other_call(calls: &mut Calls, name: &str, row: &mut Row, line: &str) -> Result<(), String> {
        match name {
            "pack" => rows::pack(calls, row, line),
            _ => Err(format!("'{name}' is no function")),
        }
    }
}

tests_of_signed!(Delta);
