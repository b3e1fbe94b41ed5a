//! Dictionary columns.

mod bytes;
mod columns;
mod faults;
mod indexes;
mod reader;
mod rows;
mod values;

use crate::raw::{cahermisk_dictionary_scan, cahermisk_dictionary_unpack, Answer};
use crate::reader::dictionary::Dictionary;
use crate::signed::layout::{Place, Signed};
use crate::signed::tests_of_signed;
use crate::support::random::Random;
use crate::support::row::{hexadecimal, Row};

impl Signed for Dictionary {
    const NAME: &'static str = "dictionary";
    const COUNTS: &'static [usize] = &columns::COUNTS;

    fn of(entries: &[i32]) -> Dictionary {
        columns::of(entries)
    }

    fn any(width: u32, n: usize, random: &mut Random) -> Dictionary {
        columns::of_another_writer(width, n, random)
    }

    fn inputs(&self) -> Vec<&[u8]> {
        vec![&self.dict, &self.page]
    }

    fn of_inputs(inputs: &[&[u8]]) -> Dictionary {
        Dictionary {
            dict: inputs[0].to_vec(),
            page: inputs[1].to_vec(),
        }
    }

    unsafe fn scan(
        inputs: &[Place],
        n: usize,
        op: u32,
        a: i64,
        b: i64,
        bitmap: *mut u8,
        room: usize,
    ) -> Answer {
        let ((dict, dict_len), (page, len)) = (inputs[0], inputs[1]);
        cahermisk_dictionary_scan(dict, dict_len, page, len, n, op, a, b, bitmap, room)
    }

    unsafe fn unpack(inputs: &[Place], n: usize, entries: *mut i32, room: usize) -> Answer {
        let ((dict, dict_len), (page, len)) = (inputs[0], inputs[1]);
        cahermisk_dictionary_unpack(dict, dict_len, page, len, n, entries, room)
    }

    fn of_row(row: &mut Row) -> Result<Dictionary, String> {
        Ok(Dictionary {
            dict: row.list_up_to("page", "dict", hexadecimal)?,
            page: row.list("page", hexadecimal)?,
        })
    }
}

tests_of_signed!(Dictionary);
