//! A page that is written from its front on: by whole bytes, and by bits as the parquet crate's bit writer does it.

pub struct Writer<'a> {
    pub page: &'a mut [u8],
    pub at: usize,
}

impl Writer<'_> {
    pub fn to(page: &mut [u8]) -> Writer<'_> {
        Writer { page, at: 0 }
    }

    #[inline]
    pub fn bytes(&mut self, bytes: &[u8]) {
        self.page[self.at..][..bytes.len()].copy_from_slice(bytes);
        self.at += bytes.len();
    }

    /// The shortest spelling of a variable-length number.
    pub fn number(&mut self, mut number: usize) {
        while number >= 128 {
            self.bytes(&[number as u8 | 0x80]);
            number >>= 7;
        }
        self.bytes(&[number as u8]);
    }
}

/// Bits are held in a word, and its eight bytes are written when it is full.
pub struct BitWriter<'a> {
    writer: Writer<'a>,
    word: u64,
    held: u32,
}

impl<'a> BitWriter<'a> {
    pub fn to(page: &'a mut [u8]) -> BitWriter<'a> {
        BitWriter {
            writer: Writer::to(page),
            word: 0,
            held: 0,
        }
    }

    /// An entry of so many bits, at most 32.
    #[inline]
    pub fn put(&mut self, entry: u32, width: u32) {
        let entry = u64::from(entry);
        self.word |= entry << self.held;
        self.held += width;
        if let Some(left) = self.held.checked_sub(64) {
            self.writer.bytes(&self.word.to_le_bytes());
            self.held = left;
            self.word = entry >> (width - left);
        }
    }

    /// Writes the bits that are held, to whole bytes; what comes next is written by bytes.
    pub fn aligned(&mut self) -> &mut Writer<'a> {
        let count = self.held.div_ceil(8) as usize;
        self.writer.bytes(&self.word.to_le_bytes()[..count]);
        (self.word, self.held) = (0, 0);
        &mut self.writer
    }
}
