//! Streams of one shape each.

use cahermisk::horizontal;

use crate::column::{entries, ENTRIES};

#[derive(Clone, Copy)]
pub enum Shape {
    /// Repeated runs of a thousand entries and more.
    Long,
    /// Packed runs of 63 groups.
    Aligned,
    /// The same after a repeated run of three entries.
    Unaligned,
    /// Repeated runs of 8 to 40 entries and packed runs of 1 to 8 groups in turn.
    Mixed,
}

/// How a run is to be: so many equal entries, or so many groups.
enum Cut {
    Repeated(usize),
    Packed(usize),
}

impl Shape {
    /// Run number i of the shape.
    fn cut(self, i: usize) -> Cut {
        match self {
            Shape::Long => Cut::Repeated(1000 + 37 * i),
            Shape::Unaligned if i == 0 => Cut::Repeated(3),
            Shape::Aligned | Shape::Unaligned => Cut::Packed(63),
            Shape::Mixed if i.is_multiple_of(2) => Cut::Repeated(8 + i * 7 % 33),
            Shape::Mixed => Cut::Packed(1 + i * 5 % 8),
        }
    }

    /// The stream of entries without a pattern, but for those that its repeated runs make equal.
    pub fn stream(self, width: u32) -> Vec<u8> {
        self.stream_of(&entries(width), width)
    }

    /// The same of other entries, as many.
    pub fn stream_of(self, entries: &[u32], width: u32) -> Vec<u8> {
        let mut page = Vec::new();
        let mut at = 0;
        for i in 0.. {
            let left = ENTRIES - at;
            at += match self.cut(i) {
                _ if left == 0 => break,
                Cut::Repeated(count) => {
                    let count = count.min(left);
                    header(2 * count, &mut page);
                    let value = entries[at].to_le_bytes();
                    page.extend(&value[..width.div_ceil(8) as usize]);
                    count
                }
                Cut::Packed(groups) => {
                    let groups = groups.min(left.div_ceil(8));
                    header(2 * groups + 1, &mut page);
                    let mut group = entries[at..ENTRIES.min(at + 8 * groups)].to_vec();
                    group.resize(8 * groups, 0);
                    let body = horizontal::pack_to_vec(&group, width);
                    page.extend(body.expect("the entries fit the width"));
                    left.min(8 * groups)
                }
            };
        }
        page
    }
}

fn header(mut h: usize, page: &mut Vec<u8>) {
    while h >= 128 {
        page.push(h as u8 | 0x80);
        h >>= 7;
    }
    page.push(h as u8);
}
