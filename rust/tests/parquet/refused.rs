//! The sentences for what does not fit.

use std::fs;
use std::io::Cursor;

use cahermisk::delta;

use crate::cut_parquet::{answer, cut_column, opened};
use crate::made::{Group, Made};
use crate::parquet::fields::column_chunk;
use crate::parquet::format::{
    name, BOOLEAN, DELTA_BINARY_PACKED, ENCODINGS, INT32, PLAIN, RLE, RLE_DICTIONARY,
};
use crate::places::{folder, text};

#[track_caller]
fn does_not_fit(made: Made, why: &str) {
    let cut = cut_column(Cursor::new(made.file()), "c");
    let sentence = format!("column c does not fit: {why}");
    assert_eq!(cut.err().as_deref(), Some(sentence.as_str()));
}

/// A good column with one thing changed.
fn but(change: impl FnOnce(&mut Made)) -> Made {
    let mut made = Made::delta();
    change(&mut made);
    made
}

#[test]
fn columns_of_other_kinds() {
    let optional = "it is optional: write it as a required column, which has an entry in every row";
    does_not_fit(but(|made| made.repetition = 1), optional);
    let repeated = "it is repeated: write it as a required column, which has an entry in every row";
    does_not_fit(but(|made| made.repetition = 2), repeated);
    for (codec, name) in [(1, "SNAPPY"), (6, "ZSTD"), (77, "number 77")] {
        let why = format!("it is compressed with {name}: write it without compression");
        does_not_fit(but(|made| made.codec = codec), &why);
    }
    does_not_fit(
        but(|made| made.kind = 2),
        "no layout is INT64 in DELTA_BINARY_PACKED",
    );
    does_not_fit(
        Made::of(INT32, 9, &[(1, &[0; 4])]),
        "no layout is INT32 in BYTE_STREAM_SPLIT",
    );
    does_not_fit(
        Made::of(BOOLEAN, RLE_DICTIONARY, &[(1, &[0])]),
        "no layout is BOOLEAN in RLE_DICTIONARY",
    );
    let mixed = but(|made| made.groups[0].pages.push((1, PLAIN, vec![0; 4])));
    does_not_fit(
        mixed,
        "its pages are in PLAIN and DELTA_BINARY_PACKED: write all in one encoding",
    );
}

#[test]
fn pages_of_other_sizes() {
    let page = [0; 20_000 / 8];
    let large = Made::of(BOOLEAN, PLAIN, &[(8, &page[..1]), (20_000, &page)]);
    does_not_fit(
        large,
        "its page 2 has 20000 rows: write pages of at most 16384",
    );
    does_not_fit(but(|made| made.groups.clear()), "it has no rows");
    let more = but(|made| made.more_rows = 1);
    does_not_fit(more, "its pages have not as many rows as the footer says");
}

#[test]
fn dictionaries() {
    let column =
        |values: &[i32]| Made::of(INT32, RLE_DICTIONARY, &[(3, &[0, 6])]).with_dictionary(values);
    let code_14 = "which is code 14: write the column as DELTA_BINARY_PACKED";
    for values in [vec![2, 1], vec![1, 1]] {
        let why = format!("the values of its dictionary do not ascend, {code_14}");
        does_not_fit(column(&values), &why);
    }
    let many: Vec<i32> = (0..16_385).collect();
    does_not_fit(
        column(&many),
        &format!("its dictionary has more than 16384 values, {code_14}"),
    );
    let mut without = column(&[1]);
    without.groups[0].dictionary = None;
    does_not_fit(without, "its dictionary is not there");
    let mut differing = column(&[1]);
    differing.groups.push(Group {
        dictionary: Some(vec![2, 0, 0, 0]),
        ..differing.groups[0].clone()
    });
    let why = "its 2 row groups have not the same dictionary: \
               write the column as DELTA_BINARY_PACKED, or in one row group";
    does_not_fit(differing, why);
}

#[test]
fn pages_that_are_elsewhere_or_damaged() {
    let encrypted = but(|made| made.chunk_field = Some(column_chunk::CRYPTO_METADATA));
    does_not_fit(encrypted, "it is encrypted");
    let elsewhere = but(|made| made.chunk_field = Some(column_chunk::FILE_PATH));
    does_not_fit(elsewhere, "its pages are in another file");
    let short = Made::of(BOOLEAN, RLE, &[(8, &[2, 0, 0])]);
    does_not_fit(short, "a page has no length bytes");
    let longer = Made::of(BOOLEAN, RLE, &[(8, &[1, 0, 0, 0, 16, 1])]);
    does_not_fit(longer, "a page is not as long as its four length bytes say");
    let mut damaged = Made::delta().file();
    damaged[4] = 0xFF;
    let why = cut_column(Cursor::new(damaged), "c").err();
    let told = "column c does not fit: a header of its pages is damaged";
    assert_eq!(why.as_deref(), Some(told));
}

/// The checksum of the page of three entries is computed by another program.
#[test]
fn a_page_whose_checksum_is_another() {
    let checked = |checksum| but(|made| made.checksum = Some(checksum));
    let good = cut_column(Cursor::new(checked(0xDAFC_7AF3).file()), "c");
    assert!(good.is_ok_and(|cut| cut.pages[0].judged == Ok(())));
    let why = "a page is damaged: its checksum is not the one in its header";
    does_not_fit(checked(0xDAFC_7AF2), why);
}

#[test]
fn files_that_are_none() {
    let file = Made::delta().file();
    let with_ends = |first: &[u8], last: &[u8]| [first, &file[4..file.len() - 4], last].concat();
    let damaged_footer = [&file[..file.len() - 8], &[255, 255, 0, 0], b"PAR1"].concat();
    let rows: [(Vec<u8>, &str); 7] = [
        (
            vec![],
            "this is no Parquet file: it does not begin with PAR1",
        ),
        (
            with_ends(b"ORC\n", b"PAR1"),
            "this is no Parquet file: it does not begin with PAR1",
        ),
        (b"PAR1".to_vec(), "it is cut off behind its first bytes"),
        (
            file[..file.len() - 1].to_vec(),
            "it is cut off: it does not end with PAR1, as it begins",
        ),
        (with_ends(b"PARE", b"PARE"), "its footer is encrypted"),
        (with_ends(b"PAR1", b"PARE"), "its footer is encrypted"),
        (damaged_footer, "its footer is damaged"),
    ];
    for (bytes, sentence) in rows {
        assert_eq!(opened(Cursor::new(bytes)).err().as_deref(), Some(sentence));
    }
}

/// A page that the library refuses is cut all the same, and told.
#[test]
fn a_page_that_the_library_refuses() {
    let folder = folder("refused");
    let mut page = delta::pack_to_vec(&[7, 5, 3]).expect("three entries");
    page.push(0);
    let path = text(&folder.join("c.parquet"));
    fs::write(
        &path,
        Made::of(INT32, DELTA_BINARY_PACKED, &[(3, &page)]).file(),
    )
    .expect("a file");
    let listed = answer(std::slice::from_ref(&path)).expect("a list");
    let refused = "delta; 1 of 1 pages refused, the first with code 6: input left over\n";
    assert!(listed.ends_with(refused), "{listed}");
    let pages = text(&folder.join("pages"));
    let said = answer(&[path, "c".to_owned(), pages.clone()]).expect("a cut");
    let told = format!("{pages}/c-001.delta: 3 entries, refused with code 6: input left over\n");
    assert!(said.starts_with(&told), "{said}");
}

#[test]
fn a_number_without_a_name() {
    assert_eq!(name(&ENCODINGS, 10), "number 10");
    assert_eq!(name(&ENCODINGS, -1), "number -1");
}
