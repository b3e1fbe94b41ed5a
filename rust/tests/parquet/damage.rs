//! Damaged files: whatever their bytes are, each column is cut or a sentence says why not.

use std::io::Cursor;
use std::ops::Range;

use cahermisk::MAX_ENTRIES;

use crate::cut_parquet::cut::cut;
use crate::cut_parquet::{list, opened};
use crate::made::Made;
use crate::parquet::format::{INT32, RLE_DICTIONARY, TAIL};
use crate::places::{bytes, top};

/// Lists and cuts all that there is: how many columns fit.
fn read_all(bytes: &[u8]) -> usize {
    let (mut file, footer) = match opened(Cursor::new(bytes)) {
        Ok(opened) => opened,
        Err(sentence) => return assert_sentence(&sentence),
    };
    assert!(!list::list(&mut file, &footer).is_empty());
    let cuts = footer
        .columns
        .iter()
        .map(|column| match cut(&mut file, column) {
            Ok(cut) => {
                assert!(cut.pages.iter().all(|page| page.entries <= MAX_ENTRIES));
                usize::from(!cut.pages.is_empty())
            }
            Err(sentence) => assert_sentence(&sentence),
        });
    cuts.sum()
}

fn assert_sentence(sentence: &str) -> usize {
    assert!(
        sentence.contains(' ') && !sentence.contains('\n'),
        "{sentence}"
    );
    0
}

/// Every byte in turn with each bit changed, and as the bytes that are the likeliest to be odd.
fn changes(file: &[u8], places: impl Iterator<Item = usize>) -> usize {
    let mut fitting = 0;
    let mut changed = file.to_vec();
    for at in places {
        let bits = (0..8).map(|bit| file[at] ^ 1 << bit);
        for byte in bits.chain([0x00, 0x7F, 0x80, 0xFF]) {
            changed[at] = byte;
            fitting += read_all(&changed);
        }
        changed[at] = file[at];
    }
    fitting
}

#[test]
fn a_small_file_with_every_byte_changed_and_every_length() {
    let dictionary =
        Made::of(INT32, RLE_DICTIONARY, &[(3, &[0, 6]), (2, &[0, 4])]).with_dictionary(&[7]);
    for made in [Made::delta(), dictionary] {
        let file = made.file();
        assert_eq!(read_all(&file), 1);
        for length in 0..file.len() {
            assert_eq!(read_all(&file[..length]), 0, "cut to {length} bytes");
        }
        assert!(changes(&file, 0..file.len()) > 0);
    }
}

#[test]
fn the_sample_file_changed_and_cut_off() {
    let file = bytes(&top("data/parquet/day.parquet"));
    assert_eq!(read_all(&file), 4);
    for length in (0..file.len()).step_by(97) {
        assert_eq!(read_all(&file[..length]), 0, "cut to {length} bytes");
    }
    // All of the footer, all of the landing's small pages with their headers, and of the rest some places.
    assert!(changes(&file, footer_of(&file)..file.len()) > 0);
    assert!(changes(&file, pages_of(&file, "landing")) > 0);
    assert!(changes(&file, (0..file.len()).step_by(641)) > 0);
}

/// Where the footer begins.
fn footer_of(file: &[u8]) -> usize {
    let (rest, tail) = file.split_at(file.len() - TAIL);
    let length = tail.first_chunk().map(|length| u32::from_le_bytes(*length));
    rest.len() - length.expect("a length") as usize
}

/// The places of a column's pages in a file of one row group.
fn pages_of(file: &[u8], column: &str) -> Range<usize> {
    let (_, footer) = opened(Cursor::new(file)).expect("a good file");
    let column = footer.column(column).expect("a column");
    let chunk = column.chunks[0].as_ref().expect("a chunk");
    let at = chunk.at as usize;
    at..at + chunk.length
}

/// Nothing but a beginning and an end, and between them any bytes.
#[test]
fn any_bytes_as_a_footer() {
    let mut state = 1u64;
    let mut random = || {
        state = state
            .wrapping_mul(6_364_136_223_846_793_005)
            .wrapping_add(1);
        (state >> 56) as u8
    };
    for round in 0..20_000 {
        let length = round % 64;
        let footer: Vec<u8> = (0..length).map(|_| random() & random()).collect();
        let file = [b"PAR1", &footer[..], &[length as u8, 0, 0, 0], b"PAR1"].concat();
        read_all(&file);
    }
}
