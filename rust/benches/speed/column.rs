//! The column that every layout is measured with.

pub const ENTRIES: usize = 16_384;
pub const SOME_WIDTHS: [u32; 8] = [1, 3, 7, 8, 13, 16, 24, 32];

/// Numbers without a pattern.
fn numbers() -> impl Iterator<Item = u32> {
    let mut state = 0x2545_F491_4F6C_DD1D_u64;
    let next = move || {
        state ^= state << 13;
        state ^= state >> 7;
        state ^= state << 17;
        Some((state >> 32) as u32)
    };
    std::iter::from_fn(next).take(ENTRIES)
}

/// Entries without a pattern, below 2^width.
pub fn entries(width: u32) -> Vec<u32> {
    let entries = numbers().map(|number| number >> (32 - width));
    entries.collect()
}

/// A level that moves by at most 1 from entry to entry, from a third of the numbers of a width on.
pub fn level(width: u32) -> Vec<u32> {
    let mut level = greatest(width) / 3;
    let levels = numbers().map(|number| {
        level = match number % 3 {
            0 => level.saturating_sub(1),
            1 => level,
            _ => greatest(width).min(level + 1),
        };
        level
    });
    levels.collect()
}

/// The greatest number of a width.
pub fn greatest(width: u32) -> u32 {
    u32::MAX >> (32 - width)
}

/// The middle half of the numbers of a width.
pub fn band(width: u32) -> (u32, u32) {
    let greatest = greatest(width);
    (greatest / 4, greatest / 4 + greatest / 2)
}

/// A function for each width from 1 to 32, by its constant parameter.
macro_rules! of_each_width {
    ($function:ident as $type:ty) => {
        $crate::column::of_each_width!($function as $type:
            1 2 3 4 5 6 7 8 9 10 11 12 13 14 15 16
            17 18 19 20 21 22 23 24 25 26 27 28 29 30 31 32
        )
    };
    ($function:ident as $type:ty: $($width:literal)*) => {
        [$($function::<$width> as $type),*]
    };
}
pub(crate) use of_each_width;

/// A macro with the numbers from 0 to 63: what is done for each of 64 entries by its constant number.
macro_rules! with_0_to_63 {
    ($macro:ident) => {
        $macro!(
            0 1 2 3 4 5 6 7 8 9 10 11 12 13 14 15
            16 17 18 19 20 21 22 23 24 25 26 27 28 29 30 31
            32 33 34 35 36 37 38 39 40 41 42 43 44 45 46 47
            48 49 50 51 52 53 54 55 56 57 58 59 60 61 62 63
        )
    };
}
pub(crate) use with_0_to_63;
