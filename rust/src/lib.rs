//! Compares, unpacks and packs the columns of a packed log.
//!
//! The work is done by a library that is proved to answer as its rules say, for any bytes and any
//! numbers; this package makes its calls safe. No function here panics. A refused call gives a
//! [`Refusal`] and changes nothing that was lent to it.
//!
//! - [`horizontal`]: bare horizontal pages, entries of 0 to 32 bits laid end to end.
//! - [`vertical`]: bit planes, entries of 0 to 32 bits in groups of 64, one word for each bit.
//! - [`runs`]: run streams, the RLE/bit-packing hybrid: equal entries once, others packed by eight.
//! - [`delta`]: delta pages, signed 32-bit entries kept as deltas from one to the next.
//! - [`dictionary`]: dictionary columns, signed 32-bit entries kept as indexes of a dictionary.
//! - [`spans`]: the stretches of selected entries of a bitmap, and the bitmap of such stretches.
//!
//! A [`Comparison`] is an [`Operator`] and two constants; a scan's result is a [`Bitmap`], and two of
//! them are joined by `&` and `|`.
//!
//! ```
//! use cahermisk::{horizontal, Comparison};
//!
//! // The entries 0 to 7, three bits each.
//! let page = [0x88, 0xC6, 0xFA];
//! let selection = horizontal::scan_to_bitmap(&page, 3, 8, Comparison::less(3))?;
//! assert_eq!(selection.count(), 3);
//! assert_eq!(selection.selected().collect::<Vec<_>>(), [0, 1, 2]);
//! # Ok::<(), cahermisk::Refusal>(())
//! ```
//!
//! # Room
//!
//! Of the functions those whose names end in `_to_vec` or `_to_bitmap` allocate their result, as those that
//! give a [`Bitmap`] do. The others, [`spans::to_bitmap`] among them, write to a place lent by the caller and
//! allocate nothing. How much room is enough is told by `const` functions, so that it may be an array's
//! length: [`horizontal::page_bytes`], [`vertical::page_words`], [`runs::page_bytes`],
//! [`delta::page_bytes`], [`spans::places`], and [`Bitmap::bytes_for`] for every bitmap. They give 0 for
//! what is past the limits, which every call refuses before it looks at the room.
//!
//! # Features
//!
//! The package is `no_std` and needs `alloc`. The feature `std`, a default, adds one thing: a [`Refusal`]
//! becomes a `std::io::Error`. For a target without std, say `default-features = false`.
//!
//! # Linking
//!
//! The build links `libcahermisk.a`, and takes the first of these:
//!
//! 1. the one in the folder that the environment variable `CAHERMISK_LIB_DIR` names. If it is set, no other
//!    is looked for; a relative path is taken from the folder of this package, where its `Cargo.toml` is,
//!    and not from where cargo was started;
//! 2. the one that `make lib` wrote, in `../target/staticlib` beside this package;
//! 3. an installed one (`make install`), by `pkg-config --variable=libdir cahermisk`.
//!
//! An archive for another machine than the one built for is refused with a sentence.

#![no_std]
#![warn(missing_docs)]
#![deny(unsafe_code)]

extern crate alloc;
#[cfg(feature = "std")]
extern crate std;

mod bitmap;
mod comparison;
pub mod delta;
pub mod dictionary;
mod ffi;
pub mod horizontal;
mod layout;
mod operator;
mod refusal;
pub mod runs;
pub mod spans;
pub mod vertical;

pub use bitmap::{Bitmap, Selected, Spans};
pub use comparison::Comparison;
pub use operator::Operator;
pub use refusal::Refusal;

/// The most bits an entry may have.
pub const MAX_WIDTH: u32 = 32;

/// The most entries a page may have.
pub const MAX_ENTRIES: usize = 16_384;

/// The most bytes a dictionary may have, four for each value.
pub const MAX_DICTIONARY_BYTES: usize = 65_536;

/// The examples of README.md, run as tests.
#[cfg(doctest)]
#[doc = include_str!("../../README.md")]
struct Readme;
