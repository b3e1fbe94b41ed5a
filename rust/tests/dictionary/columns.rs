//! Dictionaries, and columns that index them.

use std::collections::BTreeSet;

use crate::reader::calls::Rules;
use crate::reader::dictionary::Dictionary;
use crate::reader::runs::Runs;
use crate::runs::streams::of_entries_below;
use crate::support::calls::Calls;
use crate::support::random::Random;

/// The counts around which a group, a byte and a word of the bitmap lie.
pub const COUNTS: [usize; 20] = [
    0, 1, 2, 3, 7, 8, 9, 10, 15, 16, 17, 31, 63, 64, 65, 66, 127, 128, 129, 200,
];

/// The most values that a dictionary may have.
pub const MOST_VALUES: usize = 16_384;

/// The dictionary of some values.
pub fn dict_of(values: &[i32]) -> Vec<u8> {
    let bytes = values.iter().flat_map(|value| value.to_le_bytes());
    bytes.collect()
}

/// A column of some values and an index page.
pub fn column(values: &[i32], page: &[u8]) -> Dictionary {
    Dictionary {
        dict: dict_of(values),
        page: page.to_vec(),
    }
}

/// An index page of the indexes in a run stream as this library writes them.
pub fn page_of(indexes: &[u32], width: u32) -> Vec<u8> {
    let mut page = vec![width as u8];
    page.extend(Runs::page_of(indexes, width));
    page
}

/// The column of some entries: all that are different, and their places of the least width.
pub fn of(entries: &[i32]) -> Dictionary {
    let values: Vec<i32> = BTreeSet::from_iter(entries.iter().copied())
        .into_iter()
        .collect();
    let index = |entry: &i32| values.binary_search(entry).expect("a value of its own") as u32;
    let indexes: Vec<u32> = entries.iter().map(index).collect();
    let width = (0..32).find(|&width| values.len() <= 1 << width);
    column(&values, &page_of(&indexes, width.expect("few values")))
}

/// So many values, ascending: one after the other, close together, or anywhere; now and then with those at the ends.
pub fn values(count: usize, random: &mut Random) -> Vec<i32> {
    let (base, among) = (random.bits() as i32, 3 * count + 1);
    let mut values = BTreeSet::new();
    if random.once_in(3) {
        let ends = [i32::MIN, i32::MAX, 0, -1, i32::MIN + 1];
        values.extend(ends.into_iter().take(count));
    }
    let kind = random.below(3);
    for i in 0.. {
        if values.len() == count {
            break;
        }
        values.insert(match kind {
            0 => base.wrapping_add(i),
            1 => base.wrapping_add(random.below(among) as i32),
            _ => random.bits() as i32,
        });
    }
    values.into_iter().collect()
}

/// How many values a dictionary has whose indexes are of a width: few, some, or as many as the width can count.
fn count(width: u32, n: usize, random: &mut Random) -> usize {
    let most = MOST_VALUES.min(1 << width);
    match random.below(20) {
        0 => most,
        1 if n == 0 => 0,
        _ => random.pick(&[1, 2, 3, 5, 40, 300]).min(most),
    }
}

/// A column of n entries by any writer: indexes of a width, most of them wider than needed, anything past n.
pub fn of_another_writer(width: u32, n: usize, random: &mut Random) -> Dictionary {
    let count = count(width, n, random);
    let mut page = vec![width as u8];
    page.extend(of_entries_below(count as u64, width, n, random));
    column(&values(count, random), &page)
}

impl Calls {
    /// The calls of one test of dictionary columns.
    pub fn of_dictionary(subject: &str) -> Calls {
        Calls::of_signed::<Dictionary>(subject)
    }

    /// A scan and an unpack of any bytes as a dictionary and an index page: the code that both give.
    pub fn read_dictionary(&mut self, dict: &[u8], page: &[u8], n: usize) -> u32 {
        let (dict, page) = (dict.to_vec(), page.to_vec());
        self.read_signed(&Dictionary { dict, page }, n)
    }
}
