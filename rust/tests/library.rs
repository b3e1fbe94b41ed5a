//! The library's C functions against the second reader: a folder for each layout, and for what all share.

mod bare;
mod delta;
mod dictionary;
mod empty;
mod horizontal;
mod layouts;
mod raw;
mod reader;
mod rooms;
mod runs;
mod signed;
mod spans;
mod stress;
mod support;
mod vertical;
