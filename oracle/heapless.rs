// A stand-in for the crate heapless, written here: the part of its Deque that the published fir.rs uses.
use std::collections::vec_deque::{Iter, VecDeque};

/// A queue of at most N items.
#[derive(Debug)]
pub struct Deque<T, const N: usize> {
    items: VecDeque<T>,
}

impl<T, const N: usize> Deque<T, N> {
    pub fn new() -> Self {
        Deque { items: VecDeque::with_capacity(N) }
    }
    pub fn len(&self) -> usize {
        self.items.len()
    }
    /// A full queue gives the item back.
    pub fn push_back(&mut self, item: T) -> Result<(), T> {
        if self.items.len() == N {
            return Err(item);
        }
        self.items.push_back(item);
        Ok(())
    }
    pub fn pop_front(&mut self) -> Option<T> {
        self.items.pop_front()
    }
    pub fn clear(&mut self) {
        self.items.clear()
    }
    /// From the front to the back.
    pub fn iter(&self) -> Iter<'_, T> {
        self.items.iter()
    }
}
