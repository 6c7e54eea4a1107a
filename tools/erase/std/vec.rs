//! Lists whose allocations can fail.
use super::alloc::{AllocError, AllocFailed, Allocator, Global};
use core::fmt;
use core::mem::size_of;
use core::ops::{Deref, DerefMut};
use core::slice;
use rust_alloc::vec::{self, Vec as List};

/// A growable list, whose allocations can fail.
pub struct Vec<T, A = Global> {
    items: List<T>,
    alloc: A,
}

impl<T, A: Allocator> Vec<T, A> {
    #[inline]
    pub fn new(alloc: A) -> Self {
        Vec { items: List::new(), alloc }
    }

    pub fn with_capacity(alloc: A, count: usize) -> Result<Self, AllocError> {
        let mut list = Vec::new(alloc);
        list.reserve_exact(count)?;
        Ok(list)
    }

    /// Returns a list of this many copies.
    pub fn filled(alloc: A, item: T, count: usize) -> Result<Self, AllocError>
    where
        T: Clone,
    {
        let mut list = Vec::new(alloc);
        list.resize(count, item)?;
        Ok(list)
    }

    /// Returns the list of the items of an array.
    pub fn from_slice(alloc: A, items: &[T]) -> Result<Self, AllocError>
    where
        T: Clone,
    {
        let mut list = Self::new(alloc);
        list.extend_from_slice(items)?;
        Ok(list)
    }

    pub fn from_array<const N: usize>(alloc: A, items: [T; N]) -> Result<Self, AllocError> {
        let mut list = Vec::with_capacity(alloc, N)?;
        list.items.extend(items);
        Ok(list)
    }

    // Asks for leave if there is no room for this many more items.
    #[inline]
    fn ask(&self, more: usize) -> Result<(), AllocError> {
        if self.items.capacity() - self.items.len() < more {
            self.alloc.allocate(more.saturating_mul(size_of::<T>()), align_of::<T>())?;
        }
        Ok(())
    }

    #[inline]
    pub fn reserve(&mut self, more: usize) -> Result<(), AllocError> {
        self.ask(more)?;
        self.items.try_reserve(more).map_err(|_| AllocError)
    }

    #[inline]
    pub fn reserve_exact(&mut self, more: usize) -> Result<(), AllocError> {
        self.ask(more)?;
        self.items.try_reserve_exact(more).map_err(|_| AllocError)
    }

    #[inline]
    pub fn push(&mut self, item: T) -> Result<(), AllocFailed<T>> {
        if self.items.len() == self.items.capacity() && self.reserve(1).is_err() {
            return Err(AllocFailed(item));
        }
        self.items.push(item);
        Ok(())
    }

    #[inline]
    pub fn resize(&mut self, count: usize, item: T) -> Result<(), AllocError>
    where
        T: Clone,
    {
        self.reserve(count.saturating_sub(self.items.len()))?;
        self.items.resize(count, item);
        Ok(())
    }

    #[inline]
    pub fn extend_from_slice(&mut self, more: &[T]) -> Result<(), AllocError>
    where
        T: Clone,
    {
        self.reserve(more.len())?;
        self.items.extend_from_slice(more);
        Ok(())
    }
}

impl<T, A> Vec<T, A> {
    #[inline]
    pub fn as_slice(&self) -> &[T] {
        &self.items
    }

    #[inline]
    pub fn as_mut_slice(&mut self) -> &mut [T] {
        &mut self.items
    }

    #[inline]
    pub fn capacity(&self) -> usize {
        self.items.capacity()
    }

    #[inline]
    pub fn clear(&mut self) {
        self.items.clear();
    }

    #[inline]
    pub fn truncate(&mut self, count: usize) {
        self.items.truncate(count);
    }

    /// The list as Rust's own.
    #[inline]
    pub fn into_std(self) -> List<T> {
        self.items
    }
}

impl<T, A> Deref for Vec<T, A> {
    type Target = [T];

    #[inline]
    fn deref(&self) -> &[T] {
        &self.items
    }
}

impl<T, A> DerefMut for Vec<T, A> {
    #[inline]
    fn deref_mut(&mut self) -> &mut [T] {
        &mut self.items
    }
}

impl<T, A> AsRef<[T]> for Vec<T, A> {
    fn as_ref(&self) -> &[T] {
        self
    }
}

impl<T: fmt::Debug, A> fmt::Debug for Vec<T, A> {
    fn fmt(&self, f: &mut fmt::Formatter<'_>) -> fmt::Result {
        self.items.fmt(f)
    }
}

impl<T: Clone, A: Clone> Clone for Vec<T, A> {
    fn clone(&self) -> Self {
        Vec { items: self.items.clone(), alloc: self.alloc.clone() }
    }
}

impl<T: PartialEq, A> PartialEq for Vec<T, A> {
    fn eq(&self, other: &Self) -> bool {
        self.items == other.items
    }
}

impl<T: Eq, A> Eq for Vec<T, A> {}

impl<T, A: Default> FromIterator<T> for Vec<T, A> {
    fn from_iter<I: IntoIterator<Item = T>>(items: I) -> Self {
        Vec { items: items.into_iter().collect(), alloc: A::default() }
    }
}

impl<'a, T, A> IntoIterator for &'a Vec<T, A> {
    type Item = &'a T;
    type IntoIter = slice::Iter<'a, T>;

    fn into_iter(self) -> Self::IntoIter {
        self.items.iter()
    }
}

impl<T, A> IntoIterator for Vec<T, A> {
    type Item = T;
    type IntoIter = vec::IntoIter<T>;

    fn into_iter(self) -> Self::IntoIter {
        self.items.into_iter()
    }
}
