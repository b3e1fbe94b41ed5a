//! A bitmap that is written from its first bit on, eight bytes when they are full. It has whole words.

pub struct Bits<'a> {
    bitmap: &'a mut [u8],
    at: usize,
    word: u64,
    held: usize,
    /// Of the bits that are written, how many are set.
    pub count: usize,
}

impl Bits<'_> {
    pub fn to(bitmap: &mut [u8]) -> Bits<'_> {
        Bits {
            bitmap,
            at: 0,
            word: 0,
            held: 0,
            count: 0,
        }
    }

    /// The lowest `count` bits of a word, all others being 0; count is 1 to 64.
    #[inline(always)]
    pub fn push(&mut self, word: u64, count: usize) {
        let full = self.word | word << self.held;
        let left = word >> 1 >> (63 - self.held);
        self.held += count;
        self.word = full;
        if count == 64 || self.held >= 64 {
            self.bitmap[self.at..][..8].copy_from_slice(&full.to_le_bytes());
            self.count += full.count_ones() as usize;
            self.at += 8;
            self.held -= 64;
            self.word = left;
        }
    }

    /// The same bit so many times: whole words are filled at once.
    #[inline(always)]
    pub fn push_same(&mut self, bit: bool, mut count: usize) {
        let word = if bit { u64::MAX } else { 0 };
        if count > 64 {
            let first = 64 - self.held;
            self.push(word & u64::MAX >> self.held, first);
            let whole = (count - first) / 64;
            self.bitmap[self.at..][..8 * whole].fill(word as u8);
            self.at += 8 * whole;
            self.count += if bit { 64 * whole } else { 0 };
            count = (count - first) % 64;
        }
        if count > 0 {
            self.push(word & u64::MAX >> (64 - count), count);
        }
    }
}
