//! A queue of at most eight values, held in a ring.

use crate::limits::QUEUE_CAPACITY;

#[derive(Clone, Copy, Debug)]
pub struct Queue<T> {
    places: [Option<T>; QUEUE_CAPACITY],
    head: usize,
    len: usize,
}

impl<T: Copy> Queue<T> {
    pub fn empty() -> Self {
        Queue { places: [None; QUEUE_CAPACITY], head: 0, len: 0 }
    }

    pub fn len(&self) -> usize {
        self.len
    }

    pub fn is_empty(&self) -> bool {
        self.len == 0
    }

    pub fn is_full(&self) -> bool {
        self.len == QUEUE_CAPACITY
    }

    pub fn front(&self) -> Option<T> {
        self.places[self.head]
    }

    /// Appends; the caller has seen that the queue is not full.
    pub fn push(&mut self, value: T) {
        assert!(!self.is_full());
        self.places[(self.head + self.len) % QUEUE_CAPACITY] = Some(value);
        self.len += 1;
    }

    /// Takes the first value off; the caller has seen that there is one.
    pub fn drop_front(&mut self) {
        assert!(!self.is_empty());
        self.places[self.head] = None;
        self.head = (self.head + 1) % QUEUE_CAPACITY;
        self.len -= 1;
    }

    pub fn iter(&self) -> impl Iterator<Item = T> + '_ {
        (0..self.len).filter_map(|i| self.places[(self.head + i) % QUEUE_CAPACITY])
    }
}

/// Two queues are equal if they hold the same values, wherever the ring starts.
impl<T: Copy + PartialEq> PartialEq for Queue<T> {
    fn eq(&self, other: &Self) -> bool {
        self.iter().eq(other.iter())
    }
}
