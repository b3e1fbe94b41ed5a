//! The layouts of the package, each as its six functions.

use cahermisk::{horizontal, runs, vertical, Bitmap, Comparison, Refusal};

pub const ENTRIES: [u32; 8] = [0, 1, 2, 3, 4, 5, 6, 7];

pub type Scan<T> = fn(&[T], u32, usize, Comparison, &mut [u8]) -> Result<usize, Refusal>;
pub type ScanToBitmap<T> = fn(&[T], u32, usize, Comparison) -> Result<Bitmap, Refusal>;
pub type Unpack<T> = fn(&[T], u32, usize, &mut [u32]) -> Result<usize, Refusal>;
pub type UnpackToVec<T> = fn(&[T], u32, usize) -> Result<Vec<u32>, Refusal>;
pub type Pack<T> = fn(&[u32], u32, &mut [T]) -> Result<usize, Refusal>;
pub type PackToVec<T> = fn(&[u32], u32) -> Result<Vec<T>, Refusal>;

/// A layout whose pages are lists of `T`.
pub struct Layout<T: 'static> {
    /// The entries 0 to 7 at width 3.
    pub page: &'static [T],
    /// How many bytes the page of 16,384 entries of width 32 has that are not equal.
    pub largest: usize,
    pub scan: Scan<T>,
    pub scan_to_bitmap: ScanToBitmap<T>,
    pub unpack: Unpack<T>,
    pub unpack_to_vec: UnpackToVec<T>,
    pub pack: Pack<T>,
    pub pack_to_vec: PackToVec<T>,
}

pub const HORIZONTAL: Layout<u8> = Layout {
    page: &[0x88, 0xC6, 0xFA],
    largest: 65_536,
    scan: horizontal::scan,
    scan_to_bitmap: horizontal::scan_to_bitmap,
    unpack: horizontal::unpack,
    unpack_to_vec: horizontal::unpack_to_vec,
    pack: horizontal::pack,
    pack_to_vec: horizontal::pack_to_vec,
};

pub const VERTICAL: Layout<u64> = Layout {
    page: &[0b1111_0000, 0b1100_1100, 0b1010_1010],
    largest: 65_536,
    scan: vertical::scan,
    scan_to_bitmap: vertical::scan_to_bitmap,
    unpack: vertical::unpack,
    unpack_to_vec: vertical::unpack_to_vec,
    pack: vertical::pack,
    pack_to_vec: vertical::pack_to_vec,
};

/// The largest has a header for each 63 groups.
pub const RUNS: Layout<u8> = Layout {
    page: &[0x03, 0x88, 0xC6, 0xFA],
    largest: 65_536 + 33,
    scan: runs::scan,
    scan_to_bitmap: runs::scan_to_bitmap,
    unpack: runs::unpack,
    unpack_to_vec: runs::unpack_to_vec,
    pack: runs::pack,
    pack_to_vec: runs::pack_to_vec,
};

/// Each function of a layout given, as a test of every layout.
macro_rules! in_each_layout {
    ($($test:ident)*) => {
        mod horizontal {
            $(#[test]
            fn $test() {
                super::$test(&crate::layout::HORIZONTAL);
            })*
        }
        mod vertical {
            $(#[test]
            fn $test() {
                super::$test(&crate::layout::VERTICAL);
            })*
        }
        mod runs {
            $(#[test]
            fn $test() {
                super::$test(&crate::layout::RUNS);
            })*
        }
    };
}
pub(crate) use in_each_layout;
