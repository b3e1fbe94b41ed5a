//! A stream read run by run.

use core::iter::FusedIterator;

use crate::ffi::next_run;
use crate::Refusal;

/// One run of a stream.
#[derive(Clone, Copy, Debug, PartialEq, Eq, Hash)]
pub enum Run<'a> {
    /// Equal entries.
    Repeated {
        /// How many they are.
        length: usize,
        /// What each of them is.
        value: u32,
    },
    /// Groups of 8 entries.
    Packed {
        /// How many entries they have, 8 a group, also where the last of them pass n.
        length: usize,
        /// Their bytes, a part of the page: a [horizontal](crate::horizontal) page of `length` entries.
        body: &'a [u8],
    },
}

impl Run<'_> {
    /// How many entries the run has; of a packed run also those that pass n.
    #[must_use]
    pub const fn length(&self) -> usize {
        match *self {
            Run::Repeated { length, .. } | Run::Packed { length, .. } => length,
        }
    }
}

/// Reads the run at place `at` of a stream of `n` entries of which `covered` come before it. Gives the
/// run and the place after it.
///
/// [`Runs`] does this for all runs of a stream, in turn.
///
/// # Errors
///
/// The first that holds of [`WidthAboveLimit`](Refusal::WidthAboveLimit),
/// [`TooManyEntries`](Refusal::TooManyEntries), [`InputEndsTooEarly`](Refusal::InputEndsTooEarly) for a
/// place past the page's end, [`RunPastN`](Refusal::RunPastN) if `n` or more are covered; then
/// [`InputEndsTooEarly`](Refusal::InputEndsTooEarly) or
/// [`NumberBeyondItsBits`](Refusal::NumberBeyondItsBits) for the run's header,
/// [`RunOfLength0`](Refusal::RunOfLength0), [`RunPastN`](Refusal::RunPastN),
/// [`InputEndsTooEarly`](Refusal::InputEndsTooEarly) for what follows the header, and
/// [`ValueTooLarge`](Refusal::ValueTooLarge).
///
/// # Examples
///
/// ```
/// use cahermisk::runs::{self, Run};
/// use cahermisk::Refusal;
///
/// let page = [0x06, 0x04, 0x03, 0x88, 0xC6, 0xFA];
/// let (run, at) = runs::next(&page, 3, 11, 0, 0)?;
/// assert_eq!((run, at), (Run::Repeated { length: 3, value: 4 }, 2));
///
/// let (run, at) = runs::next(&page, 3, 11, at, run.length())?;
/// assert_eq!((run, at), (Run::Packed { length: 8, body: &page[3..] }, 6));
///
/// assert_eq!(runs::next(&page, 3, 11, at, 11), Err(Refusal::RunPastN));
/// # Ok::<(), Refusal>(())
/// ```
pub fn next(
    page: &[u8],
    width: u32,
    n: usize,
    at: usize,
    covered: usize,
) -> Result<(Run<'_>, usize), Refusal> {
    let answer = next_run(page, width, n, at, covered)?;
    let length = answer.length;
    let run = if answer.is_packed() {
        // The library is proved to name a part of the page.
        let body = &page[answer.body_at..][..answer.body_len];
        Run::Packed { length, body }
    } else {
        let value = answer.value;
        Run::Repeated { length, value }
    };
    Ok((run, answer.next))
}

/// The runs of a stream, in turn, up to the run that reaches `n`.
///
/// A refusal of [`next`] is given once and ends the iteration. Bytes after the run that reaches `n` are not
/// looked at: the stream is whole if [`place`](Runs::place) is then the page's length.
///
/// # Examples
///
/// ```
/// use cahermisk::horizontal;
/// use cahermisk::runs::{Run, Runs};
///
/// // How many entries are 4, each repeated run taken as one?
/// let page = [0x06, 0x04, 0x03, 0x88, 0xC6, 0xFA];
/// let mut runs = Runs::new(&page, 3, 11);
/// let mut fours = 0;
/// for run in &mut runs {
///     fours += match run? {
///         Run::Repeated { length, value } => if value == 4 { length } else { 0 },
///         Run::Packed { length, body } => {
///             let entries = horizontal::unpack_to_vec(body, 3, length)?;
///             entries.iter().filter(|&&entry| entry == 4).count()
///         }
///     };
/// }
/// assert_eq!(fours, 4);
/// assert_eq!(runs.place(), page.len());
/// # Ok::<(), cahermisk::Refusal>(())
/// ```
#[derive(Clone, Debug)]
#[must_use = "iterators are lazy and do nothing unless consumed"]
pub struct Runs<'a> {
    page: &'a [u8],
    width: u32,
    n: usize,
    at: usize,
    covered: usize,
    refused: bool,
}

impl<'a> Runs<'a> {
    /// The runs of a stream of `n` entries that begins with the page. Nothing is read yet.
    pub const fn new(page: &'a [u8], width: u32, n: usize) -> Runs<'a> {
        Runs {
            page,
            width,
            n,
            at: 0,
            covered: 0,
            refused: false,
        }
    }

    /// The place in the page after the last run given.
    #[must_use]
    pub const fn place(&self) -> usize {
        self.at
    }

    /// How many entries the runs given have; the last packed run may have taken it past `n`.
    #[must_use]
    pub const fn covered(&self) -> usize {
        self.covered
    }
}

impl<'a> Iterator for Runs<'a> {
    type Item = Result<Run<'a>, Refusal>;

    fn next(&mut self) -> Option<Self::Item> {
        if self.refused || self.covered >= self.n {
            return None;
        }
        let read = next(self.page, self.width, self.n, self.at, self.covered);
        Some(match read {
            Ok((run, at)) => {
                self.at = at;
                self.covered += run.length();
                Ok(run)
            }
            Err(refusal) => {
                self.refused = true;
                Err(refusal)
            }
        })
    }
}

impl FusedIterator for Runs<'_> {}
