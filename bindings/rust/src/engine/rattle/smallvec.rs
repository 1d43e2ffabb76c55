//! Vectors with room for some items inside.

use super::alloc::{AllocError, AllocFailed, Allocator, Global};
use smallvec::{Array, CollectionAllocErr};
use std::marker::PhantomData;
use std::ops::{Deref, DerefMut};

/// A vector that keeps up to `N` items in itself, and more than that in memory that may be refused.
/// If it is, the vector is as it was.
pub struct SmallVec<T, const N: usize, A: Allocator = Global>
where
    [T; N]: Array<Item = T>,
{
    items: smallvec::SmallVec<[T; N]>,
    alloc: PhantomData<A>,
}

/// Returns the error of a growth that Rust's allocator refused.
fn refused(_error: CollectionAllocErr) -> AllocError {
    AllocError
}

impl<T, const N: usize, A: Allocator> SmallVec<T, N, A>
where
    [T; N]: Array<Item = T>,
{
    /// Returns an empty vector. It takes no memory.
    #[inline]
    pub fn new(_alloc: A) -> Self {
        SmallVec {
            items: smallvec::SmallVec::new(),
            alloc: PhantomData,
        }
    }

    /// Returns how many items it has room for.
    #[inline]
    pub fn capacity(&self) -> usize {
        self.items.capacity()
    }

    /// Whether the items lie in memory of their own.
    #[inline]
    pub fn spilled(&self) -> bool {
        self.items.spilled()
    }

    /// Makes room for `additional` more items. A growth is to a power of two.
    ///
    /// # Errors
    ///
    /// `AllocError`: memory was refused.
    #[inline]
    pub fn reserve(&mut self, additional: usize) -> Result<(), AllocError> {
        if additional <= self.items.capacity() - self.items.len() {
            return Ok(());
        }
        self.grow(additional)
    }

    /// Whether there is room for one more item.
    #[inline(always)]
    fn has_room(&self) -> bool {
        self.items.len() < self.items.capacity()
    }

    /// Makes room for `additional` more items, for which there is too little.
    #[cold]
    #[inline(never)]
    fn grow(&mut self, additional: usize) -> Result<(), AllocError> {
        self.items.try_reserve(additional).map_err(refused)
    }

    /// Makes room for exactly `additional` more items, if there is less.
    ///
    /// # Errors
    ///
    /// `AllocError`: memory was refused.
    // As calls, this and `push_reserved` would add a tenth to the instructions of an evaluation.
    #[inline(always)]
    pub fn reserve_exact(&mut self, additional: usize) -> Result<(), AllocError> {
        if additional <= self.items.capacity() - self.items.len() {
            return Ok(());
        }
        self.items.try_reserve_exact(additional).map_err(refused)
    }

    /// Appends an item.
    ///
    /// # Errors
    ///
    /// `AllocFailed`: memory was refused. The item comes back.
    #[inline]
    pub fn push(&mut self, value: T) -> Result<(), AllocFailed<T>> {
        if !self.has_room() && self.grow(1).is_err() {
            return Err(AllocFailed { value });
        }
        self.items.push(value);
        Ok(())
    }

    /// Appends an item, for which there is room.
    ///
    /// # Panics
    ///
    /// There is no room, which is a mistake of the caller.
    #[inline(always)]
    pub fn push_reserved(&mut self, value: T) {
        assert!(self.has_room(), "no room was reserved");
        self.items.push(value);
    }

    /// Takes the last item, if there is one.
    #[inline]
    pub fn pop(&mut self) -> Option<T> {
        self.items.pop()
    }

    /// Drops the items behind the first `len`, and keeps the room.
    #[inline]
    pub fn truncate(&mut self, len: usize) {
        self.items.truncate(len);
    }

    /// Drops all items, and keeps the room.
    #[inline]
    pub fn clear(&mut self) {
        self.items.clear();
    }

    /// Returns the items.
    #[inline]
    pub fn as_slice(&self) -> &[T] {
        &self.items
    }

    /// Returns the items, to be changed.
    #[inline]
    pub fn as_mut_slice(&mut self) -> &mut [T] {
        &mut self.items
    }
}

impl<T: Copy, const N: usize, A: Allocator> SmallVec<T, N, A>
where
    [T; N]: Array<Item = T>,
{
    /// Returns a vector with copies of `items`. Up to `N` of them take no memory.
    ///
    /// # Errors
    ///
    /// `AllocError`: memory was refused.
    #[inline]
    pub fn from_slice(alloc: A, items: &[T]) -> Result<Self, AllocError> {
        if items.len() <= N {
            return Ok(SmallVec {
                items: smallvec::SmallVec::from_slice(items),
                alloc: PhantomData,
            });
        }
        let mut vec = SmallVec::new(alloc);
        vec.reserve_exact(items.len())?;
        vec.items.extend_from_slice(items);
        Ok(vec)
    }

    /// Returns a vector with `count` copies of `item`. Up to `N` of them take no memory.
    ///
    /// # Errors
    ///
    /// `AllocError`: memory was refused.
    #[inline]
    pub fn from_elem(alloc: A, item: T, count: usize) -> Result<Self, AllocError> {
        if count <= N {
            return Ok(SmallVec {
                items: smallvec::SmallVec::from_elem(item, count),
                alloc: PhantomData,
            });
        }
        let mut vec = SmallVec::new(alloc);
        vec.reserve_exact(count)?;
        vec.items.resize(count, item);
        Ok(vec)
    }

    /// Appends copies of `items`.
    ///
    /// # Errors
    ///
    /// `AllocError`: memory was refused.
    #[inline]
    pub fn extend_from_slice(&mut self, items: &[T]) -> Result<(), AllocError> {
        self.reserve(items.len())?;
        self.items.extend_from_slice(items);
        Ok(())
    }
}

impl<T, const N: usize, A: Allocator> Deref for SmallVec<T, N, A>
where
    [T; N]: Array<Item = T>,
{
    type Target = [T];

    #[inline]
    fn deref(&self) -> &[T] {
        &self.items
    }
}

impl<T, const N: usize, A: Allocator> DerefMut for SmallVec<T, N, A>
where
    [T; N]: Array<Item = T>,
{
    #[inline]
    fn deref_mut(&mut self) -> &mut [T] {
        &mut self.items
    }
}
