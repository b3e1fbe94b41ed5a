//! A place as a caller lends it: with a guard on both sides, or with a fence on one of them.

use super::fenced::{Edge, Fenced};

const GUARD: usize = 16;

/// The fillings that guards and outputs hold before a call.
pub const FILLINGS: [u8; 4] = [0x00, 0xFF, 0xA5, 0x5A];

/// An element of a place, filled with a byte.
pub trait Filled: Copy + PartialEq {
    fn filled(with: u8) -> Self;
}

impl Filled for u8 {
    fn filled(with: u8) -> u8 {
        with
    }
}

impl Filled for u32 {
    fn filled(with: u8) -> u32 {
        u32::from_ne_bytes([with; 4])
    }
}

impl Filled for i32 {
    fn filled(with: u8) -> i32 {
        i32::from_ne_bytes([with; 4])
    }
}

impl Filled for u64 {
    fn filled(with: u8) -> u64 {
        u64::from_ne_bytes([with; 8])
    }
}

pub struct Lent<'a, T> {
    memory: Memory<'a, T>,
    front: usize,
    len: usize,
    guard: T,
}

/// Memory of the place's own, or some at a fence.
enum Memory<'a, T> {
    Own(Vec<T>),
    Fenced(&'a mut [T]),
}

impl<'a, T: Filled> Lent<'a, T> {
    /// A place that holds `held`, `shift` elements further from its memory's start than the guard asks.
    pub fn new(held: &[T], guard: u8, shift: usize) -> Lent<'a, T> {
        let guard = T::filled(guard);
        let front = GUARD + shift;
        let mut all = vec![guard; front + held.len() + GUARD];
        all[front..front + held.len()].copy_from_slice(held);
        Lent {
            memory: Memory::Own(all),
            front,
            len: held.len(),
            guard,
        }
    }

    /// A place that holds `held` at an edge of memory, with a guard on the other side.
    pub fn at_edge(held: &[T], guard: u8, edge: Edge, fenced: &'a mut Fenced) -> Lent<'a, T> {
        let guard = T::filled(guard);
        let (front, all) = match edge {
            Edge::Start => (0, [held, &[guard; GUARD]].concat()),
            Edge::End => (GUARD, [&[guard; GUARD], held].concat()),
        };
        Lent {
            memory: Memory::Fenced(fenced.place(edge, &all)),
            front,
            len: held.len(),
            guard,
        }
    }

    fn all(&self) -> &[T] {
        match &self.memory {
            Memory::Own(all) => all,
            Memory::Fenced(all) => all,
        }
    }

    pub fn ptr(&self) -> *const T {
        self.all()[self.front..].as_ptr()
    }

    pub fn mut_ptr(&mut self) -> *mut T {
        match &mut self.memory {
            Memory::Own(all) => all[self.front..].as_mut_ptr(),
            Memory::Fenced(all) => all[self.front..].as_mut_ptr(),
        }
    }

    pub fn len(&self) -> usize {
        self.len
    }

    pub fn held(&self) -> &[T] {
        &self.all()[self.front..self.front + self.len]
    }

    pub fn guards_kept(&self) -> bool {
        let behind = &self.all()[self.front + self.len..];
        let guards = self.all()[..self.front].iter().chain(behind);
        guards.into_iter().all(|&element| element == self.guard)
    }
}
