//! Stands in for heapless::Vec where speed is measured: the elements lie in the value itself, as in the real one, and nothing is
//! allocated. Only what the crate calls of it.
#![no_std]
use core::mem::MaybeUninit;
use core::ops::Deref;

pub struct Vec<T, const N: usize> {
    len: usize,
    items: [MaybeUninit<T>; N],
}

impl<T, const N: usize> Vec<T, N> {
    pub fn new() -> Self {
        Self {
            len: 0,
            items: [const { MaybeUninit::uninit() }; N],
        }
    }

    pub fn push(&mut self, item: T) -> Result<(), T> {
        if self.len == N {
            return Err(item);
        }
        self.items[self.len] = MaybeUninit::new(item);
        self.len += 1;
        Ok(())
    }

    pub fn clear(&mut self) {
        let n = self.len;
        self.len = 0;
        for item in &mut self.items[..n] {
            // The first `n` were pushed.
            unsafe { item.assume_init_drop() }
        }
    }

    pub fn from_slice(s: &[T]) -> Result<Self, ()>
    where
        T: Clone,
    {
        let mut v = Self::new();
        for x in s {
            v.push(x.clone()).map_err(|_| ())?;
        }
        Ok(v)
    }
}

impl<T, const N: usize> Drop for Vec<T, N> {
    fn drop(&mut self) {
        self.clear();
    }
}

impl<T, const N: usize> Deref for Vec<T, N> {
    type Target = [T];
    fn deref(&self) -> &[T] {
        // The first `len` were pushed.
        unsafe { core::slice::from_raw_parts(self.items.as_ptr().cast(), self.len) }
    }
}

impl<'a, T, const N: usize> IntoIterator for &'a Vec<T, N> {
    type Item = &'a T;
    type IntoIter = core::slice::Iter<'a, T>;
    fn into_iter(self) -> Self::IntoIter {
        self.iter()
    }
}
