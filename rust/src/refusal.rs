//! Why a call was refused.

use core::error::Error;
use core::fmt;

/// Makes `Refusal` of one list: the number of each code, its name, and what it means.
macro_rules! refusals {
    ($($code:literal $name:ident $words:literal,)*) => {
        /// Why a call was refused. A refused call has changed nothing that was lent to it. Code 16 is
        /// withdrawn, and not given again.
        #[derive(Clone, Copy, Debug, PartialEq, Eq, Hash)]
        #[non_exhaustive]
        pub enum Refusal {
            $(#[doc = concat!(stringify!($code), ": ", $words, ".")] $name,)*
            /// A code that this package has no name for, from a library of another version.
            Unknown(u32),
        }

        impl Refusal {
            /// The refusal of a code, or `None` for code 0, which is acceptance.
            ///
            /// ```
            /// use cahermisk::Refusal;
            ///
            /// assert_eq!(Refusal::from_code(0), None);
            /// assert_eq!(Refusal::from_code(6), Some(Refusal::InputLeftOver));
            /// ```
            #[must_use]
            pub const fn from_code(code: u32) -> Option<Refusal> {
                Some(match code {
                    0 => return None,
                    $($code => Refusal::$name,)*
                    other => Refusal::Unknown(other),
                })
            }

            /// The code of the refusal, from 1 up.
            #[must_use]
            pub const fn code(self) -> u32 {
                match self {
                    $(Refusal::$name => $code,)*
                    Refusal::Unknown(code) => code,
                }
            }
        }

        impl fmt::Display for Refusal {
            fn fmt(&self, f: &mut fmt::Formatter<'_>) -> fmt::Result {
                let words = match self {
                    $(Refusal::$name => $words,)*
                    Refusal::Unknown(_) => "not known to this package",
                };
                write!(f, "code {}: {words}", self.code())
            }
        }
    };
}

// As data/codes.txt has them: rust/tests/codes.rs holds this list to it.
refusals! {
    1 WidthAboveLimit "width above 32",
    2 TooManyEntries "more than 16,384 entries",
    3 OperatorAbove7 "operator above 7",
    4 OutputTooShort "output too short",
    5 InputEndsTooEarly "input ends too early",
    6 InputLeftOver "input left over",
    7 UnusedBitsNot0 "unused bits not 0",
    8 ValueTooLarge "entry or run value not below 2^width",
    9 NumberBeyondItsBits "variable-length number beyond 32 bits",
    10 RunOfLength0 "run of length 0",
    11 RunPastN "run goes too far past n, or one run is asked for with n covered",
    12 DeltaShape "delta shape",
    13 DeltaCountNotN "delta count is not n",
    14 MalformedDictionary
        "dictionary: length no multiple of 4, over 65,536 bytes, or values not strictly ascending",
    15 IndexTooLarge "index not below the dictionary's count",
    // 16 is withdrawn.
    17 MiniblockTooWide "delta writer: a miniblock needs more than 32 bits",
    18 SpansMisplaced
        "spans: not ascending with a gap of at least one entry, an end before its start, or the entry count reached",
}

impl Error for Refusal {}

/// For those who read pages in a function that gives an `io::Result`: the error's kind is `InvalidData`,
/// and it holds the refusal. Needs the feature `std`.
///
/// ```
/// use std::io;
///
/// use cahermisk::{delta, Comparison, Refusal};
///
/// fn count(page: &[u8], n: usize) -> io::Result<usize> {
///     Ok(delta::scan_to_bitmap(page, n, Comparison::less(0))?.count())
/// }
///
/// let error = count(&[0x80, 0x01], 1).unwrap_err();
/// assert_eq!(error.to_string(), "code 5: input ends too early");
/// assert_eq!(error.downcast().ok(), Some(Refusal::InputEndsTooEarly));
/// ```
#[cfg(feature = "std")]
impl From<Refusal> for std::io::Error {
    fn from(refusal: Refusal) -> std::io::Error {
        std::io::Error::new(std::io::ErrorKind::InvalidData, refusal)
    }
}
