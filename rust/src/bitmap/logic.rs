//! Selections joined by and, by or, and turned by not.

use core::ops::{BitAnd, BitAndAssign, BitOr, BitOrAssign, Not};

use super::Bitmap;

impl Bitmap {
    /// The shorter of two bitmaps is taken with as many entries as the longer, the added ones not selected.
    fn join(&mut self, other: &Bitmap, join: impl Fn(u8, u8) -> u8) {
        self.entries = self.entries.max(other.entries);
        self.bytes.resize(Bitmap::bytes_for(self.entries), 0);
        let (both, alone) = self.bytes.split_at_mut(other.bytes.len());
        for (byte, &other) in both.iter_mut().zip(&other.bytes) {
            *byte = join(*byte, other);
        }
        for byte in alone {
            *byte = join(*byte, 0);
        }
        let counts = self.bytes.iter().map(|byte| byte.count_ones() as usize);
        self.count = counts.sum();
    }
}

/// An operator that may be given its sides in either order, of bitmaps and of references to them.
macro_rules! operator {
    ($means:literal: $Operator:ident $operator:ident, $Assign:ident $assign:ident by $join:expr) => {
        #[doc = $means]
        impl $Assign<&Bitmap> for Bitmap {
            fn $assign(&mut self, other: &Bitmap) {
                self.join(other, $join);
            }
        }

        #[doc = $means]
        impl $Assign for Bitmap {
            fn $assign(&mut self, other: Bitmap) {
                self.$assign(&other);
            }
        }

        #[doc = $means]
        impl $Operator<&Bitmap> for Bitmap {
            type Output = Bitmap;

            fn $operator(mut self, other: &Bitmap) -> Bitmap {
                self.$assign(other);
                self
            }
        }

        #[doc = $means]
        impl $Operator for Bitmap {
            type Output = Bitmap;

            fn $operator(self, other: Bitmap) -> Bitmap {
                self.$operator(&other)
            }
        }

        #[doc = $means]
        impl $Operator<Bitmap> for &Bitmap {
            type Output = Bitmap;

            fn $operator(self, other: Bitmap) -> Bitmap {
                other.$operator(self)
            }
        }

        #[doc = $means]
        impl $Operator for &Bitmap {
            type Output = Bitmap;

            fn $operator(self, other: &Bitmap) -> Bitmap {
                self.clone().$operator(other)
            }
        }
    };
}

operator!(
    "The entries that both select, among as many as the longer one has.":
    BitAnd bitand, BitAndAssign bitand_assign by |a, b| a & b
);
operator!(
    "The entries that one of the two selects or both do, among as many as the longer one has.":
    BitOr bitor, BitOrAssign bitor_assign by |a, b| a | b
);

/// The entries that are not selected.
impl Not for Bitmap {
    type Output = Bitmap;

    fn not(mut self) -> Bitmap {
        for byte in &mut self.bytes {
            *byte = !*byte;
        }
        let unused = 8 * self.bytes.len() - self.entries;
        if let Some(last) = self.bytes.last_mut() {
            *last &= u8::MAX >> unused;
        }
        self.count = self.entries - self.count;
        self
    }
}

/// The entries that are not selected.
impl Not for &Bitmap {
    type Output = Bitmap;

    fn not(self) -> Bitmap {
        !self.clone()
    }
}
