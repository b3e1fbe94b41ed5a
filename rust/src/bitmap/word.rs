//! 64 entries of a bitmap at once.

/// 64 entries, and which of them are selected and not yet given.
#[derive(Clone, Copy, Debug, Default)]
pub(super) struct Word {
    /// The number of the entry of bit 0.
    pub(super) first: usize,
    pub(super) bits: u64,
}

impl Word {
    /// The entries from `first` on, a multiple of 64; past the bitmap's end none is selected.
    #[inline]
    pub(super) fn at(bytes: &[u8], first: usize) -> Option<Word> {
        let rest = bytes.get(first / 8..)?;
        let bits = match rest.first_chunk() {
            Some(&whole) => u64::from_le_bytes(whole),
            None => rest.iter().rfold(0, |bits, &b| bits << 8 | u64::from(b)),
        };
        Some(Word { first, bits })
    }

    /// The 64 entries after these.
    #[inline]
    pub(super) fn after(self, bytes: &[u8]) -> Option<Word> {
        Word::at(bytes, self.first + 64)
    }
}
