//! Every refusal that a function can give, and nothing is written by one.

use std::fmt::Debug;

use cahermisk::{Comparison, Refusal};

use crate::layout::{in_each_layout, Layout, ENTRIES, HORIZONTAL, VERTICAL};

in_each_layout! {
    scans_refuse
    unpacks_refuse
    packs_refuse
}

/// The layout's page with an element more.
fn longer<T: Copy>(layout: &Layout<T>) -> Vec<T> {
    [layout.page, &layout.page[..1]].concat()
}

/// The layout's page without its last element.
fn shorter<T>(layout: &Layout<T>) -> &[T] {
    &layout.page[..layout.page.len() - 1]
}

fn scans_refuse<T: Copy>(layout: &Layout<T>) {
    let scan = |page: &[T], width, n, room: usize| {
        let mut bitmap = vec![0xA5; room];
        let answer = (layout.scan)(page, width, n, Comparison::less(3), &mut bitmap);
        assert_eq!(bitmap, vec![0xA5; room], "a refusal wrote");
        answer
    };
    let (page, longer) = (layout.page, &longer(layout));
    assert_eq!(scan(page, 33, 8, 1), Err(Refusal::WidthAboveLimit));
    assert_eq!(scan(page, 3, 16_385, 1), Err(Refusal::TooManyEntries));
    assert_eq!(scan(page, 3, 8, 0), Err(Refusal::OutputTooShort));
    let shorter = shorter(layout);
    assert_eq!(scan(shorter, 3, 8, 1), Err(Refusal::InputEndsTooEarly));
    assert_eq!(scan(longer, 3, 8, 1), Err(Refusal::InputLeftOver));
}

fn unpacks_refuse<T: Copy>(layout: &Layout<T>) {
    let unpack = |page: &[T], width, n, room: usize| {
        let mut entries = vec![99; room];
        let answer = (layout.unpack)(page, width, n, &mut entries);
        assert_eq!(entries, vec![99; room], "a refusal wrote");
        answer
    };
    let (page, longer) = (layout.page, &longer(layout));
    assert_eq!(unpack(page, 33, 8, 8), Err(Refusal::WidthAboveLimit));
    assert_eq!(unpack(page, 3, 16_385, 8), Err(Refusal::TooManyEntries));
    assert_eq!(unpack(page, 3, 8, 7), Err(Refusal::OutputTooShort));
    let shorter = shorter(layout);
    assert_eq!(unpack(shorter, 3, 8, 8), Err(Refusal::InputEndsTooEarly));
    assert_eq!(unpack(longer, 3, 8, 8), Err(Refusal::InputLeftOver));
}

/// The last of the page's entries is not 0, and not asked for.
fn unused_bits_not_0<T>(layout: &Layout<T>) {
    let unused = Refusal::UnusedBitsNot0;
    let less = Comparison::less(3);
    assert_eq!(
        (layout.scan_to_bitmap)(layout.page, 3, 7, less),
        Err(unused)
    );
    assert_eq!((layout.unpack_to_vec)(layout.page, 3, 7), Err(unused));
}

#[test]
fn bare_layouts_refuse_unused_bits() {
    unused_bits_not_0(&HORIZONTAL);
    unused_bits_not_0(&VERTICAL);
}

fn packs_refuse<T: Copy + Debug + PartialEq>(layout: &Layout<T>) {
    let pack = |entries: &[u32], width, room: usize| {
        let mut page = vec![layout.page[0]; room];
        let answer = (layout.pack)(entries, width, &mut page);
        assert_eq!(page, vec![layout.page[0]; room], "a refusal wrote");
        answer
    };
    assert_eq!(pack(&ENTRIES, 33, 3), Err(Refusal::WidthAboveLimit));
    assert_eq!(pack(&[0; 16_385], 3, 3), Err(Refusal::TooManyEntries));
    assert_eq!(pack(&ENTRIES, 2, 3), Err(Refusal::ValueTooLarge));
    let short = layout.page.len() - 1;
    assert_eq!(pack(&ENTRIES, 3, short), Err(Refusal::OutputTooShort));

    let to_vec = layout.pack_to_vec;
    assert_eq!(to_vec(&[0; 16_385], 32), Err(Refusal::TooManyEntries));
    assert_eq!(to_vec(&[1], u32::MAX), Err(Refusal::WidthAboveLimit));
}
