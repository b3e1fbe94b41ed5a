//! What each type and encoding becomes.

use std::io::Cursor;

use cahermisk::{delta, runs};

use crate::cut_parquet::cut::Cut;
use crate::cut_parquet::cut_column;
use crate::made::{Group, Made};
use crate::parquet::format::{
    BOOLEAN, DELTA_BINARY_PACKED, INT32, PLAIN, PLAIN_DICTIONARY, RLE, RLE_DICTIONARY,
};
use crate::parquet::layout::Layout;

fn cut(made: &Made) -> Cut {
    cut_column(Cursor::new(made.file()), "c").expect("a column that fits")
}

/// A column of one page becomes a page of a layout, in pages of both versions.
#[track_caller]
fn becomes(mut made: Made, layout: Layout, page: &[u8]) {
    for is_v2 in [false, true] {
        made.is_v2 = is_v2;
        let cut = cut(&made);
        let [file] = &cut.pages[..] else {
            panic!("not one page: {}", cut.pages.len());
        };
        assert_eq!((cut.layout, &file.bytes[..]), (layout, page));
        assert_eq!((file.entries, file.judged), (made.groups[0].rows(), Ok(())));
        assert_eq!(cut.dictionary, made.groups[0].dictionary);
    }
}

#[test]
fn int32_in_each_encoding() {
    let page = delta::pack_to_vec(&[7, 5, 3]).expect("three entries");
    becomes(
        Made::of(INT32, DELTA_BINARY_PACKED, &[(3, &page)]),
        Layout::Delta,
        &page,
    );

    let page = [1, 0, 0, 0, 255, 255, 255, 255];
    becomes(
        Made::of(INT32, PLAIN, &[(2, &page)]),
        Layout::Horizontal(32),
        &page,
    );

    let page = [2, 0x03, 0b1110_0100, 0];
    for encoding in [RLE_DICTIONARY, PLAIN_DICTIONARY] {
        let made = Made::of(INT32, encoding, &[(4, &page)]).with_dictionary(&[-5, 0, 8, 9]);
        becomes(made, Layout::Dictionary, &page);
    }
}

#[test]
fn booleans_in_each_encoding() {
    let page = [0b101];
    becomes(
        Made::of(BOOLEAN, PLAIN, &[(3, &page)]),
        Layout::Horizontal(1),
        &page,
    );

    let stream = runs::pack_to_vec(&[1; 30], 1).expect("thirty entries");
    let page = [&[stream.len() as u8, 0, 0, 0], &stream[..]].concat();
    becomes(
        Made::of(BOOLEAN, RLE, &[(30, &page)]),
        Layout::Runs(1),
        &stream,
    );
}

#[test]
fn row_groups_go_on_with_one_dictionary() {
    let mut made = Made::of(INT32, RLE_DICTIONARY, &[(3, &[0, 6])]).with_dictionary(&[7]);
    let more = Group {
        pages: vec![(2, RLE_DICTIONARY, vec![0, 4])],
        ..made.groups[0].clone()
    };
    made.groups.push(Group::default());
    made.groups.push(more);
    let cut = cut(&made);
    let entries: Vec<usize> = cut.pages.iter().map(|page| page.entries).collect();
    assert_eq!(
        (entries, cut.dictionary),
        (vec![3, 2], Some(vec![7, 0, 0, 0]))
    );
}
