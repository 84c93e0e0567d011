// A stand-in for the crate heapless, written here after the plan of its 0.8 series: a Deque that is a ring of N places with
// the indices of its front and back and a flag that tells full from empty, and whose iterator steps an index around the
// ring. It has the part that the published fir.rs uses.
use std::mem::MaybeUninit;

/// A queue of at most N items, all in place.
pub struct Deque<T, const N: usize> {
    ring: [MaybeUninit<T>; N],
    front: usize,
    back: usize,
    full: bool,
}

impl<T: Copy, const N: usize> Deque<T, N> {
    pub fn new() -> Self {
        Deque { ring: [MaybeUninit::uninit(); N], front: 0, back: 0, full: false }
    }

    #[inline]
    fn after(place: usize) -> usize {
        if place + 1 == N { 0 } else { place + 1 }
    }

    #[inline]
    fn before(place: usize) -> usize {
        if place == 0 { N - 1 } else { place - 1 }
    }

    #[inline]
    pub fn len(&self) -> usize {
        match () {
            _ if self.full => N,
            _ if self.back < self.front => self.back + N - self.front,
            _ => self.back - self.front,
        }
    }

    /// A full queue gives the item back.
    #[inline]
    pub fn push_back(&mut self, item: T) -> Result<(), T> {
        if self.full {
            return Err(item);
        }
        unsafe { self.ring.get_unchecked_mut(self.back).write(item) };
        self.back = Self::after(self.back);
        self.full = self.front == self.back;
        Ok(())
    }

    #[inline]
    pub fn pop_front(&mut self) -> Option<T> {
        if self.front == self.back && !self.full {
            return None;
        }
        let place = self.front;
        self.front = Self::after(place);
        self.full = false;
        Some(unsafe { self.ring.get_unchecked(place).assume_init() })
    }

    pub fn clear(&mut self) {
        (self.front, self.back, self.full) = (0, 0, false);
    }

    /// From the front to the back.
    #[inline]
    pub fn iter(&self) -> Iter<'_, T, N> {
        Iter { ring: &self.ring, front: self.front, back: self.back, left: self.len() }
    }
}

impl<T: Copy + std::fmt::Debug, const N: usize> std::fmt::Debug for Deque<T, N> {
    fn fmt(&self, f: &mut std::fmt::Formatter) -> std::fmt::Result {
        f.debug_list().entries(self.iter()).finish()
    }
}

pub struct Iter<'a, T, const N: usize> {
    ring: &'a [MaybeUninit<T>; N],
    front: usize,
    back: usize,
    left: usize,
}

impl<'a, T: Copy, const N: usize> Iterator for Iter<'a, T, N> {
    type Item = &'a T;
    #[inline]
    fn next(&mut self) -> Option<&'a T> {
        self.left = self.left.checked_sub(1)?;
        let place = self.front;
        self.front = Deque::<T, N>::after(place);
        Some(unsafe { self.ring.get_unchecked(place).assume_init_ref() })
    }
    #[inline]
    fn size_hint(&self) -> (usize, Option<usize>) {
        (self.left, Some(self.left))
    }
}

impl<'a, T: Copy, const N: usize> DoubleEndedIterator for Iter<'a, T, N> {
    #[inline]
    fn next_back(&mut self) -> Option<&'a T> {
        self.left = self.left.checked_sub(1)?;
        self.back = Deque::<T, N>::before(self.back);
        Some(unsafe { self.ring.get_unchecked(self.back).assume_init_ref() })
    }
}
