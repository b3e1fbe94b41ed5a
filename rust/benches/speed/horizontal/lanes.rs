//! Several entries of a word compared at once, each in a lane with room for a carry, by constants for each width.

use super::parquet_way::unpack64;

/// A band as the lanes of entries of W bits are compared with it: bit W of `a + ge` and bit W of `le - a` say whether an
/// entry is inside. Above 30 bits there is no room for lanes, and the band's own ends are used.
#[derive(Clone, Copy)]
pub struct Band<const W: usize> {
    low: u32,
    span: u32,
    ge: u64,
    le: u64,
}

/// 1 in each of some lanes of d bits.
const fn ones(d: usize, lanes: usize) -> u64 {
    let mut ones = 0;
    let mut i = 0;
    while i < lanes {
        ones |= 1 << (i * d);
        i += 1;
    }
    ones
}

/// The word of eight bytes at a place.
///
/// # Safety
///
/// Eight bytes are there.
#[inline(always)]
pub unsafe fn word(page: *const u8, at: usize) -> u64 {
    // SAFETY: the caller says so, and no alignment is asked.
    u64::from_le(unsafe { page.add(at).cast::<u64>().read_unaligned() })
}

impl<const W: usize> Band<W> {
    /// 1 in each lane: a lane of 2 × W bits for every second entry, of W + 1 for each where two fit a word.
    const ONES: u64 = match W {
        1..=8 => ones(2 * W, 4),
        9..=16 => ones(2 * W, 2),
        _ => ones(W + 1, 2),
    };

    /// From low to high.
    #[inline(always)]
    pub fn of(low: u32, high: u32) -> Band<W> {
        let p = 1u64 << W;
        Band {
            low,
            span: high - low,
            ge: (p - u64::from(low).min(p)).wrapping_mul(Self::ONES),
            le: (p + u64::from(high).min(p - 1)).wrapping_mul(Self::ONES),
        }
    }

    #[inline(always)]
    pub fn has(self, entry: u32) -> bool {
        entry.wrapping_sub(self.low) <= self.span
    }

    #[inline(always)]
    fn inside(self, a: u64) -> u64 {
        ((a + self.ge) & (self.le - a)) >> W & Self::ONES
    }

    /// Bits 2 × i and 2 × i + 1 of lane i are those of the entries 2 × i and 2 × i + 1.
    #[inline(always)]
    fn pairs(self, x: u64) -> u64 {
        let even = ((1 << W) - 1) * Self::ONES;
        self.inside(x & even) + self.inside(x >> W & even) * 2
    }

    /// The bits of the eight entries from a place on.
    ///
    /// # Safety
    ///
    /// W + 8 bytes are there.
    #[inline(always)]
    pub unsafe fn eight(self, page: *const u8) -> u64 {
        // SAFETY: each window of eight bytes begins within the W bytes of the group.
        let window = |bit: usize| unsafe { word(page, bit / 8) } >> (bit % 8);
        if W <= 8 {
            let y = self.pairs(window(0));
            let twos = 3 | 3 << (4 * W % 64);
            let z = (y & twos) + (y >> (2 * W) & twos) * 4;
            z % 16 + (z >> (4 * W)) % 16 * 16
        } else if W <= 16 {
            let four = |x| {
                let y = self.pairs(x);
                (y + (y >> (2 * W - 2))) % 16
            };
            four(window(0)) + four(window(4 * W)) * 16
        } else if W <= 30 {
            // A pair begins at an even bit of its byte, at 0 or 4 if W is 30: all of it is in the window.
            let two = |bit| {
                let y = window(bit) & ((1 << (2 * W % 64)) - 1);
                self.inside(y + (y >> W << W))
            };
            let y = two(0) + two(2 * W) * 4 + two(4 * W) * 16 + two(6 * W) * 64;
            (y + (y >> W)) % 256
        } else {
            let one = |k| (window(k * W) & ((1 << W) - 1)) as u32;
            (0..8).fold(0, |byte, k| byte | u64::from(self.has(one(k))) << k)
        }
    }

    /// The bits of some groups of eight entries, at most eight groups.
    ///
    /// # Safety
    ///
    /// W × groups + 8 bytes are there.
    #[inline(always)]
    pub unsafe fn some(self, page: *const u8, groups: usize) -> u64 {
        // SAFETY: each group has W bytes, and 8 more are there.
        let eight = |g| unsafe { self.eight(page.add(g * W)) };
        (0..groups).fold(0, |word, g| word | eight(g) << (8 * g))
    }

    /// The bits of 64 entries: above 30 bits they are unpacked.
    ///
    /// # Safety
    ///
    /// 8 × W + 8 bytes are there.
    #[inline(always)]
    pub unsafe fn all(self, page: *const u8) -> u64 {
        // SAFETY: the caller says so.
        unsafe {
            if W <= 30 {
                self.some(page, 8)
            } else {
                word_of_tests(&unpack64::<W>(page), |entry| self.has(entry))
            }
        }
    }
}

/// The bits of at most 64 tests: 1 or 0 in a byte for each, which is done several at once, and then eight bytes to eight
/// bits. They are a multiple of 8.
#[inline(always)]
pub fn word_of_tests<T: Copy, const N: usize>(entries: &[T; N], test: impl Fn(T) -> bool) -> u64 {
    let tests = entries.map(|entry| u8::from(test(entry)));
    let (eights, _) = tests.as_chunks();
    let byte = |eight: [u8; 8]| u64::from_le_bytes(eight).wrapping_mul(0x0102_0408_1020_4080) >> 56;
    (0..N / 8).fold(0, |word, g| word | byte(eights[g]) << (8 * g))
}
