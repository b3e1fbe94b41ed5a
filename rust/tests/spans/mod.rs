//! Spans of a bitmap, and the bitmap of spans.

mod bitmaps;
mod calls;
mod fences;
mod lists;
mod order;
mod reader;
mod round_trips;
pub mod samples;
