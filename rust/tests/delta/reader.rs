//! The second reader by itself: document 01's examples, and what it writes read back.

use super::pages::{any_shape, entries, of_another_writer, COUNTS};
use crate::reader::delta::{page_of, Delta};
use crate::reader::signed::Column;
use crate::support::random::Random;

fn read(page: &[u8], n: usize) -> Result<Vec<i32>, u32> {
    Delta(page.to_vec()).read(n)
}

#[test]
fn document_01() {
    let (entries, page) = (
        [7, 5, 3, 1, 2, 3, 4, 5],
        [
            0x80, 0x01, 0x04, 0x08, 0x0E, 0x03, 0x02, 0, 0, 0, 0xC0, 0x3F, 0, 0, 0, 0, 0, 0,
        ],
    );
    assert_eq!(page_of(&entries), page);
    assert_eq!(read(&page, 8), Ok(entries.to_vec()));
    let (entries, page) = (
        [2147483647, -2147483648],
        [
            0x80, 0x01, 0x04, 0x02, 0xFE, 0xFF, 0xFF, 0xFF, 0x0F, 0x02, 0, 0, 0, 0,
        ],
    );
    assert_eq!(page_of(&entries), page);
    assert_eq!(read(&page, 2), Ok(entries.to_vec()));
}

#[test]
fn what_is_written_is_read_back() {
    let mut random = Random::new("delta second reader");
    for width in 0..=32 {
        for n in COUNTS {
            let entries = entries(width, n, &mut random);
            assert_eq!(read(&page_of(&entries), n).as_ref(), Ok(&entries));
            let shape = any_shape(&mut random);
            let page = of_another_writer(&entries, shape, &mut random);
            assert_eq!(read(&page, n), Ok(entries));
        }
    }
}
