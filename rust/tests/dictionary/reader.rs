//! The second reader by itself: document 01's example, and columns read back.

use super::columns::{column, of, COUNTS};
use crate::reader::signed::Column;
use crate::support::random::Random;

#[test]
fn document_01() {
    let page = [0x02, 0x06, 0x03];
    let with_310 = column(&[-120, 0, 85, 310], &page);
    assert_eq!(with_310.dict[..4], [0x88, 0xFF, 0xFF, 0xFF]);
    assert_eq!(with_310.dict[12..], [0x36, 0x01, 0x00, 0x00]);
    assert_eq!(with_310.read(3), Ok(vec![310; 3]));
    assert_eq!(column(&[-120, 0, 85], &page).read(3), Err(15));
}

#[test]
fn what_is_written_is_read_back() {
    let mut random = Random::new("dictionary second reader");
    for n in COUNTS {
        for most in [1, 2, 3, 4, 5, 100] {
            let some: Vec<i32> = (0..most).map(|_| random.bits() as i32).collect();
            let entries: Vec<i32> = (0..n).map(|_| random.pick(&some)).collect();
            assert_eq!(of(&entries).read(n), Ok(entries));
        }
    }
}
