// A list of at most N items in one flat array: the tables and the run state need no heap.
use std::ops::Deref;

#[derive(Clone)]
pub struct List<T, const N: usize> {
    items: [T; N],
    count: usize,
}

impl<T: Copy, const N: usize> List<T, N> {
    /// An empty list; `filler` only gives the unused places a value.
    pub fn new(filler: T) -> Self {
        List { items: [filler; N], count: 0 }
    }

    /// The first `count` of the items.
    pub fn from(items: [T; N], count: usize) -> Self {
        List { items, count }
    }

    /// Adds an item; the caller has looked whether there is room.
    #[inline]
    pub fn push(&mut self, item: T) {
        self.items[self.count] = item;
        self.count += 1;
    }

    pub fn is_full(&self) -> bool {
        self.count == N
    }
}

impl<T, const N: usize> Deref for List<T, N> {
    type Target = [T];

    #[inline]
    fn deref(&self) -> &[T] {
        &self.items[..self.count]
    }
}
