//! Vectors.

use super::alloc::{AllocError, AllocFailed, Allocator, Global};
use std::fmt;
use std::marker::PhantomData;
use std::ops::{Deref, DerefMut};

/// A vector whose growth may be refused. If it is, the vector is as it was.
pub struct Vec<T, A: Allocator = Global> {
    items: std::vec::Vec<T>,
    alloc: PhantomData<A>,
}

impl<T, A: Allocator> Vec<T, A> {
    /// Returns an empty vector. It takes no memory.
    #[inline]
    pub fn new(_alloc: A) -> Self {
        Vec {
            items: std::vec::Vec::new(),
            alloc: PhantomData,
        }
    }

    /// Returns an empty vector with room for `capacity` items.
    ///
    /// # Errors
    ///
    /// `AllocError`: memory was refused.
    #[inline]
    pub fn with_capacity(alloc: A, capacity: usize) -> Result<Self, AllocError> {
        let mut vec = Vec::new(alloc);
        let reserved = vec.items.try_reserve_exact(capacity);
        reserved.map_err(|_| AllocError)?;
        Ok(vec)
    }

    /// Makes room for `additional` more items.
    ///
    /// # Errors
    ///
    /// `AllocError`: memory was refused.
    #[inline]
    pub fn reserve(&mut self, additional: usize) -> Result<(), AllocError> {
        if additional <= self.items.capacity() - self.items.len() {
            return Ok(());
        }
        self.grow(additional)
    }

    /// Whether there is room for one more item.
    #[inline]
    fn has_room(&self) -> bool {
        self.items.len() < self.items.capacity()
    }

    /// Makes room for `additional` more items, for which there is too little.
    #[cold]
    #[inline(never)]
    fn grow(&mut self, additional: usize) -> Result<(), AllocError> {
        self.items.try_reserve(additional).map_err(|_| AllocError)
    }

    /// Appends an item.
    ///
    /// # Errors
    ///
    /// `AllocFailed`: memory was refused. The item comes back.
    #[inline]
    pub fn push(&mut self, value: T) -> Result<(), AllocFailed<T>> {
        if !self.has_room() && self.grow(1).is_err() {
            return Err(AllocFailed { value });
        }
        self.items.push(value);
        Ok(())
    }

    /// Appends an item, for which there is room.
    ///
    /// # Panics
    ///
    /// There is no room, which is a mistake of the caller.
    #[inline]
    pub fn push_reserved(&mut self, value: T) {
        assert!(self.has_room(), "no room was reserved");
        self.items.push(value);
    }

    /// Drops all items, and keeps the memory.
    #[inline]
    pub fn clear(&mut self) {
        self.items.clear();
    }

    /// Returns the items.
    #[inline]
    pub fn as_slice(&self) -> &[T] {
        &self.items
    }

    /// Returns the items, to be changed.
    #[inline]
    pub fn as_mut_slice(&mut self) -> &mut [T] {
        &mut self.items
    }

    /// Returns the vector as one of Rust. The items are not copied.
    #[inline]
    pub fn into_std(self) -> std::vec::Vec<T> {
        self.items
    }
}

impl<T: Copy, A: Allocator> Vec<T, A> {
    /// Returns a vector with copies of `items`. If there are none, it takes no memory.
    ///
    /// # Errors
    ///
    /// `AllocError`: memory was refused.
    #[inline]
    pub fn from_slice(alloc: A, items: &[T]) -> Result<Self, AllocError> {
        let mut vec = Vec::with_capacity(alloc, items.len())?;
        vec.items.extend_from_slice(items);
        Ok(vec)
    }

    /// Appends copies of `items`.
    ///
    /// # Errors
    ///
    /// `AllocError`: memory was refused.
    #[inline]
    pub fn extend_from_slice(&mut self, items: &[T]) -> Result<(), AllocError> {
        self.reserve(items.len())?;
        self.items.extend_from_slice(items);
        Ok(())
    }

    /// Returns a vector with `count` copies of `item`. `vec![in alloc; item; count]` calls this.
    ///
    /// # Errors
    ///
    /// `AllocError`: memory was refused.
    #[inline]
    pub fn from_elem(alloc: A, item: T, count: usize) -> Result<Self, AllocError> {
        let mut vec = Vec::with_capacity(alloc, count)?;
        vec.items.resize(count, item);
        Ok(vec)
    }
}

/// Returns a vector with `count` copies of an item, or an error if memory was refused.
macro_rules! vec {
    (in $alloc:expr; $item:expr; $count:expr) => {
        $crate::engine::rattle::prelude::Vec::from_elem($alloc, $item, $count)
    };
}
pub(crate) use vec;

impl<T, A: Allocator> Deref for Vec<T, A> {
    type Target = [T];

    #[inline]
    fn deref(&self) -> &[T] {
        &self.items
    }
}

impl<T, A: Allocator> DerefMut for Vec<T, A> {
    #[inline]
    fn deref_mut(&mut self) -> &mut [T] {
        &mut self.items
    }
}

impl<T: fmt::Debug, A: Allocator> fmt::Debug for Vec<T, A> {
    fn fmt(&self, f: &mut fmt::Formatter<'_>) -> fmt::Result {
        self.items.fmt(f)
    }
}
