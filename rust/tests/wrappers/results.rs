//! What accepted calls give.

use std::fmt::Debug;

use cahermisk::{Comparison, Operator};

use crate::layout::{in_each_layout, Layout, ENTRIES};

in_each_layout! {
    comparisons_select_what_they_say
    a_bitmap_tells_its_entries
    lent_places_are_written_at_the_front
}

/// Each constructor selects from the entries 0 to 7 what its name says.
fn comparisons_select_what_they_say<T>(layout: &Layout<T>) {
    for (comparison, bitmap) in [
        (Comparison::equal(3), 0b0000_1000),
        (Comparison::not_equal(3), 0b1111_0111),
        (Comparison::less(3), 0b0000_0111),
        (Comparison::less_or_equal(3), 0b0000_1111),
        (Comparison::greater(3), 0b1111_0000),
        (Comparison::greater_or_equal(3), 0b1111_1000),
        (Comparison::between(2, 5), 0b0011_1100),
        (Comparison::not_between(2, 5), 0b1100_0011),
        (Comparison::between(5, 2), 0b0000_0000),
        (Comparison::not_between(5, 2), 0b1111_1111),
        (Comparison::new(Operator::Less, 9, -1), 0b1111_1111),
        (Comparison::greater(i64::MIN), 0b1111_1111),
    ] {
        let selection = (layout.scan_to_bitmap)(layout.page, 3, 8, comparison);
        let selection = selection.expect("a good page");
        assert_eq!(selection.as_bytes(), [bitmap], "{comparison:?}");
        assert_eq!(selection.count(), bitmap.count_ones() as usize);
    }
}

fn a_bitmap_tells_its_entries<T>(layout: &Layout<T>) {
    let page = (layout.pack_to_vec)(&[0, 0, 0, 0, 0, 0, 0, 0, 0, 127], 7).expect("good");
    let selection = (layout.scan_to_bitmap)(&page, 7, 10, Comparison::equal(127)).expect("good");
    assert_eq!((selection.len(), selection.count()), (10, 1));
    assert_eq!(selection.selected().collect::<Vec<_>>(), [9]);
    assert!(selection.contains(9));
    for i in (0..9).chain([10, 15, 16, usize::MAX]) {
        assert!(!selection.contains(i), "entry {i}");
    }
    assert!(!selection.is_empty());
    assert_eq!(selection.into_bytes(), [0x00, 0x02]);

    let none = (layout.scan_to_bitmap)(&[], 7, 0, Comparison::less(1)).expect("good");
    assert!(none.is_empty());
    assert_eq!(none.as_bytes(), []);
}

fn lent_places_are_written_at_the_front<T>(layout: &Layout<T>)
where
    T: Copy + Default + Debug + PartialEq,
{
    let mut bitmap = [0xA5; 2];
    let count = (layout.scan)(layout.page, 3, 8, Comparison::less(3), &mut bitmap);
    assert_eq!((count, bitmap), (Ok(3), [0x07, 0xA5]));

    let mut entries = [99; 9];
    assert_eq!((layout.unpack)(layout.page, 3, 8, &mut entries), Ok(8));
    assert_eq!(entries, [0, 1, 2, 3, 4, 5, 6, 7, 99]);

    let last = layout.page[2];
    let mut page = vec![T::default(); layout.page.len()];
    page.push(last);
    let written = (layout.pack)(&ENTRIES, 3, &mut page);
    assert_eq!(written, Ok(layout.page.len()));
    assert_eq!(page, [layout.page, &[last]].concat());
}
