//! Texts and lists that are borrowed or owned.

use super::alloc::{Allocator, Global};
use super::prelude::{String, Vec};
use std::fmt;

/// A text that is borrowed or owned.
pub enum CowStr<'a, A: Allocator = Global> {
    /// A borrowed text.
    Borrowed(&'a str),
    /// An owned text.
    Owned(String<A>),
}

impl<A: Allocator> CowStr<'_, A> {
    /// Returns the text.
    #[inline]
    pub fn as_str(&self) -> &str {
        match self {
            CowStr::Borrowed(text) => text,
            CowStr::Owned(text) => text.as_str(),
        }
    }
}

/// A list that is borrowed or owned.
pub enum CowSlice<'a, T, A: Allocator = Global> {
    /// A borrowed list.
    Borrowed(&'a [T]),
    /// An owned list.
    Owned(Vec<T, A>),
}

impl<T, A: Allocator> CowSlice<'_, T, A> {
    /// Returns the items.
    #[inline]
    pub fn as_slice(&self) -> &[T] {
        match self {
            CowSlice::Borrowed(items) => items,
            CowSlice::Owned(items) => items.as_slice(),
        }
    }
}

/// Prints the items, whoever owns them.
impl<T: fmt::Debug, A: Allocator> fmt::Debug for CowSlice<'_, T, A> {
    fn fmt(&self, f: &mut fmt::Formatter<'_>) -> fmt::Result {
        self.as_slice().fmt(f)
    }
}
