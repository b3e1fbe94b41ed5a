//! A place at the edge of memory that cannot be touched: a call that reads past it ends the test by a signal.
//! Guards show what a call writes; only this shows what it reads.

use std::ffi::c_void;
use std::ptr::{copy_nonoverlapping, null_mut};
use std::slice::from_raw_parts_mut;

extern "C" {
    fn mmap(at: *mut c_void, len: usize, prot: i32, flags: i32, fd: i32, from: i64) -> *mut c_void;
    fn mprotect(at: *mut c_void, len: usize, prot: i32) -> i32;
    fn munmap(at: *mut c_void, len: usize) -> i32;
}

/// Linux's numbers: no access; reading and writing; private memory of no file.
const NONE: i32 = 0;
const READ_WRITE: i32 = 3;
const PRIVATE_ANONYMOUS: i32 = 0x22;

/// A multiple of every machine's memory page, and room for the longest page of a column.
const ROOM: usize = 1 << 17;

/// Where the memory begins, and where it ends.
#[derive(Clone, Copy)]
pub enum Edge {
    Start,
    End,
}

/// Memory for one place, between two fences.
pub struct Fenced {
    start: *mut u8,
}

impl Fenced {
    pub fn new() -> Fenced {
        // SAFETY: asks for new memory; its middle third alone may then be touched.
        unsafe {
            let start = mmap(null_mut(), 3 * ROOM, NONE, PRIVATE_ANONYMOUS, -1, 0);
            assert_ne!(start as isize, -1, "no memory");
            let start = start.cast::<u8>();
            assert_eq!(mprotect(start.add(ROOM).cast(), ROOM, READ_WRITE), 0);
            Fenced { start }
        }
    }

    /// A copy of the list at an edge of the memory.
    pub fn lay<T: Copy>(&mut self, edge: Edge, list: &[T]) -> *mut T {
        assert!(std::mem::size_of_val(list) <= ROOM);
        let at = match edge {
            Edge::Start => 0,
            Edge::End => ROOM - std::mem::size_of_val(list),
        };
        // SAFETY: the list fits between the fences at this place, which is aligned for it.
        unsafe {
            let place = self.start.add(ROOM + at).cast::<T>();
            copy_nonoverlapping(list.as_ptr(), place, list.len());
            place
        }
    }

    /// The same, lent until something else is laid there.
    pub fn place<T: Copy>(&mut self, edge: Edge, list: &[T]) -> &mut [T] {
        // SAFETY: the copy lies in this value's own memory, and is not laid over while it is lent.
        unsafe { from_raw_parts_mut(self.lay(edge, list), list.len()) }
    }
}

impl Drop for Fenced {
    fn drop(&mut self) {
        // SAFETY: the memory is this value's own.
        let ended = unsafe { munmap(self.start.cast(), 3 * ROOM) };
        assert_eq!(ended, 0, "the memory is given back");
    }
}
