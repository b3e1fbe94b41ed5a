//! Bytes, words and entries at random.

use super::random::Random;
use crate::reader::Unit;

impl Random {
    pub fn units<U: Unit>(&mut self, len: usize) -> Vec<U> {
        (0..len).map(|_| U::of(self.bits())).collect()
    }
}
