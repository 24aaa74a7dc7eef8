//! The types of Rattle's std that the search names, over those of Rust: memory comes from the one allocator, and a list is read by
//! place without a look at its end.
pub use std::cmp::Reverse;
use std::ops::{Deref, DerefMut, Index, IndexMut};

#[derive(Clone, Copy, Debug)]
pub struct AllocError;

#[derive(Clone, Copy)]
pub struct Global;

pub type BTreeSet<T> = std::collections::BTreeSet<T>;

pub struct Vec<T>(pub std::vec::Vec<T>);

impl<T> Vec<T> {
    pub fn new(_: Global) -> Self {
        Vec(std::vec::Vec::new())
    }
    pub fn with_capacity(_: Global, count: usize) -> Result<Self, AllocError> {
        Ok(Vec(std::vec::Vec::with_capacity(count)))
    }
    pub fn push(&mut self, item: T) -> Result<(), AllocError> {
        self.0.push(item);
        Ok(())
    }
    pub fn pop(&mut self) -> Option<T> {
        self.0.pop()
    }
    pub fn reserve(&mut self, count: usize) -> Result<(), AllocError> {
        self.0.reserve(count);
        Ok(())
    }
    pub fn clear(&mut self) {
        self.0.clear()
    }
    pub fn swap_remove(&mut self, place: usize) -> T {
        self.0.swap_remove(place)
    }
    pub fn allocator(&self) -> &Global {
        &Global
    }
    pub fn as_slice(&self) -> &[T] {
        &self.0
    }
}

impl<T: Clone> Vec<T> {
    pub fn from_slice(_: Global, items: &[T]) -> Result<Self, AllocError> {
        Ok(Vec(items.to_vec()))
    }
}

impl<T: PartialEq> Vec<T> {
    pub fn dedup(&mut self) {
        self.0.dedup()
    }
}

impl<T: Clone> Vec<T> {
    pub fn resize(&mut self, count: usize, item: T) -> Result<(), AllocError> {
        self.0.resize(count, item);
        Ok(())
    }
}

impl<T> Deref for Vec<T> {
    type Target = [T];
    fn deref(&self) -> &[T] {
        &self.0
    }
}

impl<T> DerefMut for Vec<T> {
    fn deref_mut(&mut self) -> &mut [T] {
        &mut self.0
    }
}

impl<T, I: std::slice::SliceIndex<[T]>> Index<I> for Vec<T> {
    type Output = I::Output;
    #[inline(always)]
    fn index(&self, place: I) -> &I::Output {
        unsafe { self.0.get_unchecked(place) }
    }
}

impl<T, I: std::slice::SliceIndex<[T]>> IndexMut<I> for Vec<T> {
    #[inline(always)]
    fn index_mut(&mut self, place: I) -> &mut I::Output {
        unsafe { self.0.get_unchecked_mut(place) }
    }
}

impl<'a, T> IntoIterator for &'a Vec<T> {
    type Item = &'a T;
    type IntoIter = std::slice::Iter<'a, T>;
    fn into_iter(self) -> Self::IntoIter {
        self.0.iter()
    }
}

pub struct BinaryHeap<T: Ord>(std::collections::BinaryHeap<T>);

impl<T: Ord> BinaryHeap<T> {
    pub fn new(_: Global) -> Self {
        BinaryHeap(std::collections::BinaryHeap::new())
    }
    pub fn push(&mut self, item: T) -> Result<(), AllocError> {
        self.0.push(item);
        Ok(())
    }
    pub fn pop(&mut self) -> Option<T> {
        self.0.pop()
    }
    pub fn peek(&self) -> Option<&T> {
        self.0.peek()
    }
}
