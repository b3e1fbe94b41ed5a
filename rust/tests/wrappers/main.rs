//! The package's safe functions: what they give, each refusal, and no panic at any argument.

mod bitmaps;
mod delta;
mod dictionary;
mod layout;
mod limits;
mod operators;
mod refusals;
mod results;
mod rooms;
mod runs;
mod spans;

#[path = "../support/random.rs"]
#[allow(dead_code, reason = "the library's tests use all of it")]
mod random;
