//! The selection bitmap of a scan.

mod logic;
mod selected;
mod spans;
mod word;

pub use selected::Selected;
pub use spans::Spans;

use alloc::vec::Vec;
use core::ops::RangeInclusive;

use crate::layout::to_bitmap;
use crate::{horizontal, Comparison, Refusal, MAX_ENTRIES};

/// Which entries a scan selected: bit i mod 8, lowest first, of byte i div 8 is set exactly if
/// entry i is selected. This is the bitmap layout of Apache Arrow.
///
/// Two selections are joined by `&` and `|`, and `!` selects all other entries.
///
/// ```
/// use cahermisk::{horizontal, Comparison};
///
/// let scan = |comparison| horizontal::scan_to_bitmap(&[0x88, 0xC6, 0xFA], 3, 8, comparison);
/// let above_1 = scan(Comparison::greater(1))?;
/// let below_4 = scan(Comparison::less(4))?;
/// assert_eq!(&above_1 & &below_4, scan(Comparison::between(2, 3))?);
/// assert_eq!((!above_1 | !below_4).count(), 6);
/// # Ok::<(), cahermisk::Refusal>(())
/// ```
#[derive(Clone, Debug, PartialEq, Eq, Hash)]
#[must_use]
pub struct Bitmap {
    bytes: Vec<u8>,
    entries: usize,
    count: usize,
}

impl Bitmap {
    /// `bytes` are the bytes that a scan of `entries` entries wrote, and `count` is its answer.
    pub(crate) fn new(bytes: Vec<u8>, entries: usize, count: usize) -> Bitmap {
        Bitmap {
            bytes,
            entries,
            count,
        }
    }

    /// The bitmap of `n` entries that stands in `bytes`, such as a file's or a place that a scan was lent.
    ///
    /// # Errors
    ///
    /// The first that holds of [`TooManyEntries`](Refusal::TooManyEntries);
    /// [`InputEndsTooEarly`](Refusal::InputEndsTooEarly) or [`InputLeftOver`](Refusal::InputLeftOver) where
    /// there are not exactly [`bytes_for`](Bitmap::bytes_for) `n` bytes;
    /// [`UnusedBitsNot0`](Refusal::UnusedBitsNot0) for those of the last byte.
    ///
    /// ```
    /// use cahermisk::{Bitmap, Refusal};
    ///
    /// let selection = Bitmap::from_bytes(&[0x81, 0x02], 10)?;
    /// assert_eq!(selection.selected().collect::<Vec<_>>(), [0, 7, 9]);
    /// assert_eq!(Bitmap::from_bytes(&[0x81, 0x02], 9), Err(Refusal::UnusedBitsNot0));
    /// assert_eq!(Bitmap::from_bytes(&[0x81, 0x02], 8), Err(Refusal::InputLeftOver));
    /// # Ok::<(), Refusal>(())
    /// ```
    pub fn from_bytes(bytes: &[u8], n: usize) -> Result<Bitmap, Refusal> {
        // A bitmap is a horizontal page of width 1: the library judges it, and counts.
        horizontal::scan_to_bitmap(bytes, 1, n, Comparison::equal(1))
    }

    /// The bitmap of `n` entries in which just those of the spans are selected.
    ///
    /// # Errors
    ///
    /// The first that holds of [`TooManyEntries`](Refusal::TooManyEntries);
    /// [`SpansMisplaced`](Refusal::SpansMisplaced) where a range is empty, does not leave out at least one
    /// entry after the range before it, or does not end before `n`.
    ///
    /// ```
    /// use cahermisk::{Bitmap, Refusal};
    ///
    /// let selection = Bitmap::from_spans([2..=5, 9..=9], 10)?;
    /// assert_eq!(selection.as_bytes(), [0b0011_1100, 0b10]);
    /// assert_eq!(Bitmap::from_spans(selection.spans(), 10)?, selection);
    /// assert_eq!(Bitmap::from_spans([2..=5, 9..=10], 10), Err(Refusal::SpansMisplaced));
    /// # Ok::<(), Refusal>(())
    /// ```
    pub fn from_spans<I>(spans: I, n: usize) -> Result<Bitmap, Refusal>
    where
        I: IntoIterator<Item = RangeInclusive<usize>>,
    {
        // More than are possible below the limit are misplaced by the first that is too many.
        let possible = spans.into_iter().take(MAX_ENTRIES / 2 + 1);
        let list: Vec<u32> = possible.flat_map(spans::pair).collect();
        to_bitmap(n, |bytes| crate::spans::to_bitmap(&list, n, bytes))
    }

    /// The bytes that a scan of `n` entries writes, ceil(n / 8); 0 where a page may not have so many.
    ///
    /// ```
    /// use cahermisk::{Bitmap, MAX_ENTRIES};
    ///
    /// // Room for the bitmap of any page.
    /// let bitmap = [0u8; Bitmap::bytes_for(MAX_ENTRIES)];
    /// assert_eq!(bitmap.len(), 2048);
    /// assert_eq!(Bitmap::bytes_for(MAX_ENTRIES + 1), 0);
    /// ```
    #[must_use]
    pub const fn bytes_for(n: usize) -> usize {
        if n > MAX_ENTRIES {
            return 0;
        }
        n.div_ceil(8)
    }

    /// How many entries were compared.
    #[must_use]
    pub const fn len(&self) -> usize {
        self.entries
    }

    /// Whether no entry was compared.
    #[must_use]
    pub const fn is_empty(&self) -> bool {
        self.entries == 0
    }

    /// How many entries are selected.
    #[must_use]
    pub const fn count(&self) -> usize {
        self.count
    }

    /// Whether entry `i` is selected; no entry past the last one is.
    #[must_use]
    pub fn contains(&self, i: usize) -> bool {
        self.bytes
            .get(i / 8)
            .is_some_and(|byte| byte >> (i % 8) & 1 == 1)
    }

    /// The numbers of the selected entries, ascending; from the last one on with `rev`.
    ///
    /// ```
    /// use cahermisk::{horizontal, Comparison};
    ///
    /// let selection = horizontal::scan_to_bitmap(&[0x88, 0xC6, 0xFA], 3, 8, Comparison::greater(5))?;
    /// assert_eq!(selection.selected().collect::<Vec<_>>(), [6, 7]);
    /// assert_eq!(selection.selected().next_back(), Some(7));
    /// # Ok::<(), cahermisk::Refusal>(())
    /// ```
    pub fn selected(&self) -> Selected<'_> {
        Selected::of(&self.bytes, self.count)
    }

    /// The maximal stretches of selected entries as ranges, ascending. [`spans`](crate::spans) has them as
    /// a list of numbers.
    ///
    /// ```
    /// use cahermisk::Bitmap;
    ///
    /// let selection = Bitmap::from_bytes(&[0b0011_1100, 0b1110], 12)?;
    /// assert_eq!(selection.spans().collect::<Vec<_>>(), [2..=5, 9..=11]);
    /// # Ok::<(), cahermisk::Refusal>(())
    /// ```
    pub fn spans(&self) -> Spans<'_> {
        Spans::of(&self.bytes, self.count)
    }

    /// The bytes of the bitmap; unused bits of the last one are 0.
    #[must_use]
    pub fn as_bytes(&self) -> &[u8] {
        &self.bytes
    }

    /// The bytes of the bitmap, given away.
    #[must_use]
    pub fn into_bytes(self) -> Vec<u8> {
        self.bytes
    }
}

impl AsRef<[u8]> for Bitmap {
    fn as_ref(&self) -> &[u8] {
        &self.bytes
    }
}

/// Goes over the numbers of the selected entries, as [`Bitmap::selected`] does.
impl<'a> IntoIterator for &'a Bitmap {
    type Item = usize;
    type IntoIter = Selected<'a>;

    fn into_iter(self) -> Selected<'a> {
        self.selected()
    }
}
