//! Delta pages, which have no width and signed entries: results, every refusal, and arguments beyond all limits.

use cahermisk::delta::{pack, pack_to_vec, scan, scan_to_bitmap, unpack, unpack_to_vec};
use cahermisk::{Comparison, Refusal, MAX_ENTRIES};

const ENTRIES: [i32; 8] = [7, 5, 3, 1, 2, 3, 4, 5];

/// The page of the entries above.
const PAGE: [u8; 18] = [
    0x80, 0x01, 0x04, 0x08, 0x0E, 0x03, 0x02, 0, 0, 0, 0xC0, 0x3F, 0, 0, 0, 0, 0, 0,
];

#[test]
fn pages_there_and_back() {
    assert_eq!(pack_to_vec(&ENTRIES), Ok(PAGE.to_vec()));
    assert_eq!(unpack_to_vec(&PAGE, 8), Ok(ENTRIES.to_vec()));
    let selection = scan_to_bitmap(&PAGE, 8, Comparison::between(2, 4)).expect("a good page");
    assert_eq!(selection.as_bytes(), [0x74]);
    assert_eq!((selection.len(), selection.count()), (8, 4));
    assert_eq!(selection.selected().collect::<Vec<_>>(), [2, 4, 5, 6]);
}

#[test]
fn lent_places_are_written_at_the_front() {
    let mut bitmap = [0xA5; 2];
    let count = scan(&PAGE, 8, Comparison::less(3), &mut bitmap);
    assert_eq!((count, bitmap), (Ok(2), [0x18, 0xA5]));
    let mut entries = [99; 9];
    assert_eq!(unpack(&PAGE, 8, &mut entries), Ok(8));
    assert_eq!(entries, [7, 5, 3, 1, 2, 3, 4, 5, 99]);
    let mut page = [0xA5; 19];
    assert_eq!(pack(&ENTRIES, &mut page), Ok(18));
    assert_eq!((&page[..18], page[18]), (&PAGE[..], 0xA5));
}

/// A page changed at one place.
fn changed(place: usize, byte: u8) -> Vec<u8> {
    let mut page = PAGE.to_vec();
    page[place] = byte;
    page
}

#[test]
fn pages_refuse() {
    let longer = [&PAGE[..], &[0]].concat();
    let beyond = [0x80, 0x01, 0x04, 0x08, 0xFF, 0xFF, 0xFF, 0xFF, 0x10];
    for (page, refusal) in [
        (&PAGE[..17], Refusal::InputEndsTooEarly),
        (&longer, Refusal::InputLeftOver),
        (&beyond, Refusal::NumberBeyondItsBits),
        (&changed(2, 3), Refusal::DeltaShape),
        (&changed(3, 9), Refusal::DeltaCountNotN),
        (&changed(6, 33), Refusal::WidthAboveLimit),
    ] {
        let mut bitmap = [0xA5];
        let scanned = scan(page, 8, Comparison::less(3), &mut bitmap);
        assert_eq!((scanned, bitmap), (Err(refusal), [0xA5]));
        let mut entries = [99; 8];
        assert_eq!(unpack(page, 8, &mut entries), Err(refusal));
        assert_eq!(entries, [99; 8]);
    }
}

/// Old numbers in the width bytes of miniblocks that hold no entry.
#[test]
fn unneeded_widths_may_be_any_number() {
    for place in 7..10 {
        let page = changed(place, 0xFF);
        assert_eq!(unpack_to_vec(&page, 8), Ok(ENTRIES.to_vec()));
        let selection = scan_to_bitmap(&page, 8, Comparison::between(2, 4)).expect("a good page");
        assert_eq!(selection.as_bytes(), [0x74]);
    }
}

#[test]
fn places_that_are_too_short() {
    let short = Err(Refusal::OutputTooShort);
    assert_eq!(scan(&PAGE, 8, Comparison::less(3), &mut []), short);
    assert_eq!(unpack(&PAGE, 8, &mut [99; 7]), short);
    let mut page = [0xA5; 17];
    assert_eq!(pack(&ENTRIES, &mut page), short);
    assert_eq!(page, [0xA5; 17]);
}

/// Huge counts are refused, and no place is made for them first.
#[test]
fn huge_arguments_are_refused() {
    let many = Refusal::TooManyEntries;
    for n in [MAX_ENTRIES + 1, (1 << 32) + 8, usize::MAX] {
        let less = Comparison::less(3);
        assert_eq!(scan_to_bitmap(&PAGE, n, less), Err(many));
        assert_eq!(unpack_to_vec(&PAGE, n), Err(many));
        assert_eq!(scan(&PAGE, n, less, &mut []), Err(many));
        assert_eq!(unpack(&PAGE, n, &mut []), Err(many));
    }
    assert_eq!(pack_to_vec(&[0; MAX_ENTRIES + 1]), Err(many));
    assert_eq!(pack(&[0; MAX_ENTRIES + 1], &mut []), Err(many));
}

/// A page that has as many bytes as one may have: every miniblock but the last is full and of width 32, every
/// smallest delta and the first value take five bytes.
#[test]
fn the_largest_page() {
    let ends = [i32::MIN, i32::MAX];
    let mut entries = vec![i32::MAX];
    for i in 1..MAX_ENTRIES {
        entries.push(entries[i - 1].wrapping_add(ends[i % 2]));
    }
    let page = pack_to_vec(&entries).expect("within the limits");
    assert_eq!(page.len(), 11 + 128 * 521);
    assert_eq!(unpack_to_vec(&page, MAX_ENTRIES).as_ref(), Ok(&entries));
    let selection = scan_to_bitmap(&page, MAX_ENTRIES, Comparison::less(0)).expect("good");
    let expected: Vec<usize> = (0..MAX_ENTRIES).filter(|&i| entries[i] < 0).collect();
    assert_eq!(selection.selected().collect::<Vec<_>>(), expected);
}

/// Empty slices are answered, though no memory stands behind them.
#[test]
fn empty_slices() {
    let page = pack_to_vec(&[]).expect("no entries");
    assert_eq!(page, [0x80, 0x01, 0x04, 0x00, 0x00]);
    let less = Comparison::less(3);
    assert_eq!(scan(&page, 0, less, &mut []), Ok(0));
    assert_eq!(unpack(&page, 0, &mut []), Ok(0));
    let ended = Err(Refusal::InputEndsTooEarly);
    assert_eq!(scan(&[], 0, less, &mut []), ended);
    assert_eq!(unpack(&[], 0, &mut []), ended);
    assert_eq!(pack(&[], &mut []), Err(Refusal::OutputTooShort));
}
