//! Stands in for the crate `smallvec`: a few items inline, more on the heap.

use std::ops::Deref;

/// The array that is kept inline.
pub trait Array {
    type Item: Copy;
    fn filled(item: Self::Item) -> Self;
    fn items(&mut self) -> &mut [Self::Item];
    fn seen(&self) -> &[Self::Item];
}

impl<T: Copy, const N: usize> Array for [T; N] {
    type Item = T;

    fn filled(item: T) -> [T; N] {
        [item; N]
    }

    fn items(&mut self) -> &mut [T] {
        self
    }

    fn seen(&self) -> &[T] {
        self
    }
}

#[derive(Clone, Debug)]
pub enum SmallVec<A: Array> {
    Empty,
    /// the array and how many of its items count, at least one
    Inline(A, usize),
    Heap(Vec<A::Item>),
}

impl<A: Array> SmallVec<A> {
    pub fn new() -> SmallVec<A> {
        SmallVec::Empty
    }

    pub fn push(&mut self, item: A::Item) {
        match self {
            SmallVec::Empty => *self = SmallVec::Inline(A::filled(item), 1),
            SmallVec::Inline(array, count) if *count < array.seen().len() => {
                array.items()[*count] = item;
                *count += 1;
            }
            SmallVec::Inline(array, _) => {
                let mut items = array.items().to_vec();
                items.push(item);
                *self = SmallVec::Heap(items);
            }
            SmallVec::Heap(items) => items.push(item),
        }
    }

    pub fn pop(&mut self) -> Option<A::Item> {
        let item = self.last().copied();
        match self {
            SmallVec::Empty => {}
            SmallVec::Inline(_, 1) => *self = SmallVec::Empty,
            SmallVec::Inline(_, count) => *count -= 1,
            SmallVec::Heap(items) => {
                items.pop();
            }
        }
        item
    }
}

impl<A: Array> Default for SmallVec<A> {
    fn default() -> SmallVec<A> {
        SmallVec::new()
    }
}

impl<A: Array> Deref for SmallVec<A> {
    type Target = [A::Item];

    fn deref(&self) -> &[A::Item] {
        match self {
            SmallVec::Empty => &[],
            SmallVec::Inline(array, count) => &array.seen()[..*count],
            SmallVec::Heap(items) => items,
        }
    }
}

#[cfg(test)]
mod tests {
    use super::*;

    #[test]
    fn items_come_back_last_first() {
        let mut list: SmallVec<[u32; 2]> = SmallVec::new();
        for n in 0..5 {
            list.push(n);
            assert_eq!(list.len() as u32, n + 1);
        }
        assert_eq!(&*list, [0, 1, 2, 3, 4]);
        for n in (0..5).rev() {
            assert_eq!(list.pop(), Some(n));
        }
        assert_eq!((list.pop(), list.is_empty()), (None, true));
        list.push(7);
        list.pop();
        list.push(8);
        assert_eq!(&*list, [8]);
    }
}
