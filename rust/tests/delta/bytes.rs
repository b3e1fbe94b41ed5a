//! Any bytes as a page.

use crate::support::calls::Calls;
use crate::support::spelling::any_spelling;

/// Bytes at random behind a good header, most of them small, so that some blocks are good.
#[test]
fn bytes_at_random() {
    let mut calls = Calls::of_delta("bytes at random");
    for _ in 0..60_000 {
        let random = &mut calls.random;
        let n = random.below(300);
        let mut page = vec![0x80, 0x01, 0x04];
        page.extend(any_spelling(n as u64, random));
        let mut len = random.below(80);
        if random.once_in(4) {
            len += random.below(600);
        }
        let mask = random.pick(&[0x00, 0x01, 0x03, 0x0F, 0xFF]);
        page.extend((0..len).map(|_| random.bits() as u8 & mask));
        if random.once_in(50) {
            page = random.units(len);
        }
        calls.read_delta(&page, n);
    }
    calls.finish();
}
