//! Stands in for heapless::Vec, a vector of at most N elements: only what the crate calls of it.
use std::ops::Deref;

pub struct Vec<T, const N: usize>(std::vec::Vec<T>);

impl<T, const N: usize> Vec<T, N> {
    pub fn new() -> Self {
        Self(std::vec::Vec::new())
    }

    pub fn push(&mut self, item: T) -> Result<(), T> {
        if self.0.len() == N {
            return Err(item);
        }
        self.0.push(item);
        Ok(())
    }

    pub fn clear(&mut self) {
        self.0.clear();
    }

    pub fn from_slice(s: &[T]) -> Result<Self, ()>
    where
        T: Clone,
    {
        if s.len() > N {
            return Err(());
        }
        Ok(Self(s.to_vec()))
    }
}

impl<T, const N: usize> Deref for Vec<T, N> {
    type Target = [T];
    fn deref(&self) -> &[T] {
        &self.0
    }
}

impl<'a, T, const N: usize> IntoIterator for &'a Vec<T, N> {
    type Item = &'a T;
    type IntoIter = std::slice::Iter<'a, T>;
    fn into_iter(self) -> Self::IntoIter {
        self.0.iter()
    }
}
