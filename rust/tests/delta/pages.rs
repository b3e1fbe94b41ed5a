//! Lists of entries, and pages of them that this library's writer would not write.

use crate::reader::calls::Rules;
use crate::reader::delta::width_of;
use crate::reader::horizontal::Horizontal;
use crate::reader::numbers::zigzag_of;
use crate::support::random::Random;
use crate::support::spelling::any_spelling;

/// The counts around which a miniblock, two, three, a block and more lie: n entries have n − 1 deltas.
pub const COUNTS: [usize; 26] = [
    0, 1, 2, 3, 8, 31, 32, 33, 34, 35, 64, 65, 66, 96, 97, 98, 127, 128, 129, 130, 131, 161, 256,
    257, 258, 386,
];

/// Entries with steps of a width above a smallest one, wrapping. Now and then a miniblock's steps are of a lesser
/// width.
pub fn entries(width: u32, n: usize, random: &mut Random) -> Vec<i32> {
    let any = random.bits() as i32;
    let smallest = random.pick(&[0, -1, 1, i32::MIN, i32::MAX, any, any]);
    let any = random.bits() as i32;
    let mut last = random.pick(&[0, -1, i32::MIN, i32::MAX, any, any, any]);
    let mut steps_of = width;
    let mut next = |i: usize| {
        if i % 32 == 1 {
            let less = random.below(width as usize + 1) as u32;
            steps_of = random.pick(&[width, width, less]);
        }
        if i > 0 {
            let above = random.bits() & ((1 << steps_of) - 1);
            last = last.wrapping_add(smallest).wrapping_add(above as i32);
        }
        last
    };
    (0..n).map(&mut next).collect()
}

/// A block size and a miniblock count.
#[derive(Clone, Copy, Debug)]
pub struct Shape {
    pub block_size: usize,
    pub miniblocks: usize,
}

/// All shapes that a page may have.
pub fn shapes() -> Vec<Shape> {
    let mut shapes = Vec::new();
    for block_size in (128..=16_384).step_by(128) {
        for miniblocks in 1..=block_size / 32 {
            if block_size % (32 * miniblocks) == 0 {
                shapes.push(Shape {
                    block_size,
                    miniblocks,
                });
            }
        }
    }
    shapes
}

/// A shape at random, seldom a large one.
pub fn any_shape(random: &mut Random) -> Shape {
    let blocks = random.pick(&[1, 1, 2, 3, 4, 8]);
    let block_size = 128 * if random.once_in(50) { 128 } else { blocks };
    let miniblocks = random.pick(&[1, 2, 4, 4, block_size / 64, block_size / 32]);
    Shape {
        block_size,
        miniblocks,
    }
}

/// A page of the entries as another writer might make it: numbers now and then in more bytes than they need,
/// smallest deltas that are not the least, widths wider than needed, anything as filling, as the first value of
/// none and, of some blocks, as widths of unneeded miniblocks.
pub fn of_another_writer(entries: &[i32], shape: Shape, random: &mut Random) -> Vec<u8> {
    let any = random.bits() as i32;
    let first = entries.first().copied().unwrap_or(any);
    let counts = [shape.block_size, shape.miniblocks, entries.len()];
    let mut page = Vec::new();
    for count in counts {
        page.extend(any_spelling(count as u64, random));
    }
    page.extend(any_spelling(zigzag_of(first.into()), random));
    let pairs = entries.windows(2);
    let deltas: Vec<i32> = pairs.map(|pair| pair[1].wrapping_sub(pair[0])).collect();
    for block in deltas.chunks(shape.block_size) {
        page.extend(block_of(block, shape, random));
    }
    page
}

/// A smallest delta: the least, some less, or any number at all.
fn smallest(deltas: &[i32], random: &mut Random) -> i32 {
    let least = deltas.iter().copied().min().expect("a block has a delta");
    match random.below(3) {
        0 => least,
        1 => least.wrapping_sub(random.below(100) as i32),
        _ => random.bits() as i32,
    }
}

fn block_of(deltas: &[i32], shape: Shape, random: &mut Random) -> Vec<u8> {
    let smallest = smallest(deltas, random);
    let mut block = any_spelling(zigzag_of(smallest.into()), random);
    let size = shape.block_size / shape.miniblocks;
    let mut bodies = Vec::new();
    for mini in deltas.chunks(size) {
        let above = mini.iter().map(|delta| delta.wrapping_sub(smallest) as u32);
        let mut numbers: Vec<u32> = above.collect();
        let least = width_of(&numbers.iter().copied().map(u64::from).collect::<Vec<_>>());
        let wider = least + random.below(33 - least as usize) as u32;
        let width = random.pick(&[least, wider]);
        block.push(width as u8);
        numbers.resize_with(size, || random.bits() as u32);
        bodies.extend(Horizontal::page_of(&numbers, width));
    }
    let old_numbers = random.pick(&[0x00, 0xFF]);
    let unneeded = shape.miniblocks - deltas.len().div_ceil(size);
    block.extend((0..unneeded).map(|_| random.bits() as u8 & old_numbers));
    block.extend(bodies);
    block
}
