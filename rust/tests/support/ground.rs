//! Where the places of one call lie.

use std::slice::IterMut;

use super::fenced::{Edge, Fenced};
use super::lent::{Filled, Lent};

/// The edges of memory, or none of them: most reading outside a place is past its end.
pub const EDGES: [Option<Edge>; 4] = [None, Some(Edge::Start), Some(Edge::End), Some(Edge::End)];

/// All places lie at the same edge of memory, each in some of its own, or between guards.
pub struct Ground<'a> {
    pub guard: u8,
    pub shift: usize,
    pub edge: Option<Edge>,
    pub fences: IterMut<'a, Fenced>,
}

impl<'a> Ground<'a> {
    pub fn lend<T: Filled>(&mut self, held: &[T]) -> Lent<'a, T> {
        let Some(edge) = self.edge else {
            return Lent::new(held, self.guard, self.shift);
        };
        let fenced = self.fences.next().expect("memory for each place");
        Lent::at_edge(held, self.guard, edge, fenced)
    }
}
