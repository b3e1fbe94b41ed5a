//! Dictionary columns: results, every refusal, and arguments beyond all limits.

use cahermisk::dictionary::{scan, scan_to_bitmap, unpack, unpack_to_vec};
use cahermisk::{Comparison, Refusal, MAX_DICTIONARY_BYTES, MAX_ENTRIES};

const ENTRIES: [i32; 8] = [310, 85, 0, -120, 310, 85, 0, -120];

/// The indexes of the entries above, two bits each: 3, 2, 1, 0, 3, 2, 1, 0.
const PAGE: [u8; 4] = [0x02, 0x03, 0x1B, 0x1B];

fn dictionary_of(values: &[i32]) -> Vec<u8> {
    values.iter().flat_map(|v| v.to_le_bytes()).collect()
}

/// The dictionary of the entries above.
fn dictionary() -> Vec<u8> {
    dictionary_of(&[-120, 0, 85, 310])
}

#[test]
fn columns_are_read() {
    let dictionary = dictionary();
    assert_eq!(unpack_to_vec(&dictionary, &PAGE, 8), Ok(ENTRIES.to_vec()));
    let between = Comparison::between(-1, 100);
    let selection = scan_to_bitmap(&dictionary, &PAGE, 8, between).expect("a good column");
    assert_eq!(selection.as_bytes(), [0x66]);
    assert_eq!((selection.len(), selection.count()), (8, 4));
    assert_eq!(selection.selected().collect::<Vec<_>>(), [1, 2, 5, 6]);
}

#[test]
fn lent_places_are_written_at_the_front() {
    let mut bitmap = [0xA5; 2];
    let count = scan(&dictionary(), &PAGE, 8, Comparison::less(0), &mut bitmap);
    assert_eq!((count, bitmap), (Ok(2), [0x88, 0xA5]));
    let mut entries = [99; 9];
    assert_eq!(unpack(&dictionary(), &PAGE, 8, &mut entries), Ok(8));
    assert_eq!((&entries[..8], entries[8]), (&ENTRIES[..], 99));
}

#[test]
fn columns_refuse() {
    let good = dictionary();
    let three = &good[..12];
    for (dictionary, page, refusal) in [
        (&good[..15], &PAGE[..], Refusal::MalformedDictionary),
        (
            &dictionary_of(&[0, -120, 85, 310]),
            &PAGE,
            Refusal::MalformedDictionary,
        ),
        (three, &PAGE, Refusal::IndexTooLarge),
        (&good, &PAGE[..3], Refusal::InputEndsTooEarly),
        (&good, &[], Refusal::InputEndsTooEarly),
        (&good, &[0x21, 0x03], Refusal::WidthAboveLimit),
        (
            &good,
            &[0x02, 0x03, 0x1B, 0x1B, 0x00],
            Refusal::InputLeftOver,
        ),
        (&good, &[0x02, 0x10, 0x04], Refusal::ValueTooLarge),
        (&good, &[0x02, 0x00], Refusal::RunOfLength0),
        (&good, &[0x02, 0x12, 0x00], Refusal::RunPastN),
        (
            &good,
            &[0x02, 0xFF, 0xFF, 0xFF, 0xFF, 0x10],
            Refusal::NumberBeyondItsBits,
        ),
    ] {
        let mut bitmap = [0xA5];
        let scanned = scan(dictionary, page, 8, Comparison::less(3), &mut bitmap);
        assert_eq!((scanned, bitmap), (Err(refusal), [0xA5]));
        let mut entries = [99; 8];
        assert_eq!(unpack(dictionary, page, 8, &mut entries), Err(refusal));
        assert_eq!(entries, [99; 8]);
    }
}

#[test]
fn places_that_are_too_short() {
    let short = Err(Refusal::OutputTooShort);
    let less = Comparison::less(3);
    assert_eq!(scan(&dictionary(), &PAGE, 8, less, &mut []), short);
    assert_eq!(unpack(&dictionary(), &PAGE, 8, &mut [99; 7]), short);
}

/// Huge counts are refused, and no place is made for them first.
#[test]
fn huge_arguments_are_refused() {
    let (dictionary, many) = (dictionary(), Refusal::TooManyEntries);
    for n in [MAX_ENTRIES + 1, (1 << 32) + 8, usize::MAX] {
        let less = Comparison::less(3);
        assert_eq!(scan_to_bitmap(&dictionary, &PAGE, n, less), Err(many));
        assert_eq!(unpack_to_vec(&dictionary, &PAGE, n), Err(many));
        assert_eq!(scan(&dictionary, &PAGE, n, less, &mut []), Err(many));
        assert_eq!(unpack(&dictionary, &PAGE, n, &mut []), Err(many));
    }
}

/// As many values as there may be, each asked for once, the last one first; with one value more there is no column.
#[test]
fn the_largest_column() {
    let values: Vec<i32> = (0..=MAX_ENTRIES as i32).map(|k| 3 * k - 9999).collect();
    let indexes: Vec<u32> = (0..MAX_ENTRIES as u32).rev().collect();
    let mut page = vec![14];
    page.extend(cahermisk::runs::pack_to_vec(&indexes, 14).expect("within the limits"));
    let dictionary = dictionary_of(&values[..MAX_ENTRIES]);
    assert_eq!(dictionary.len(), MAX_DICTIONARY_BYTES);
    let entries = unpack_to_vec(&dictionary, &page, MAX_ENTRIES).expect("a good column");
    let descending: Vec<i32> = values[..MAX_ENTRIES].iter().rev().copied().collect();
    assert_eq!(entries, descending);
    let less = Comparison::less(0);
    let selection = scan_to_bitmap(&dictionary, &page, MAX_ENTRIES, less).expect("good");
    let expected: Vec<usize> = (0..MAX_ENTRIES).filter(|&i| entries[i] < 0).collect();
    assert_eq!(selection.selected().collect::<Vec<_>>(), expected);
    let longer = dictionary_of(&values);
    let refused = Err(Refusal::MalformedDictionary);
    assert_eq!(unpack_to_vec(&longer, &page, MAX_ENTRIES), refused);
}

/// Empty slices are answered, though no memory stands behind them.
#[test]
fn empty_slices() {
    let less = Comparison::less(3);
    assert_eq!(scan(&[], &[0x00], 0, less, &mut []), Ok(0));
    assert_eq!(unpack(&[], &[0x00], 0, &mut []), Ok(0));
    let ended = Err(Refusal::InputEndsTooEarly);
    assert_eq!(scan(&[], &[], 0, less, &mut []), ended);
    assert_eq!(unpack(&[], &[], 0, &mut []), ended);
    assert_eq!(
        unpack_to_vec(&[], &[0x00, 0x08], 4),
        Err(Refusal::IndexTooLarge)
    );
}
