//! Texts that are owned.

use super::alloc::{AllocError, Allocator, Global};
use std::fmt;
use std::marker::PhantomData;

/// A text that is owned.
pub struct String<A: Allocator = Global> {
    text: std::string::String,
    alloc: PhantomData<A>,
}

impl<A: Allocator> String<A> {
    /// Returns a copy of `text`. An empty one takes no memory.
    ///
    /// # Errors
    ///
    /// `AllocError`: memory was refused.
    #[inline]
    pub fn from_str(_alloc: A, text: &str) -> Result<Self, AllocError> {
        let mut copy = std::string::String::new();
        let reserved = copy.try_reserve_exact(text.len());
        reserved.map_err(|_| AllocError)?;
        copy.push_str(text);
        let alloc = PhantomData;
        Ok(String { text: copy, alloc })
    }

    /// Returns the text.
    #[inline]
    pub fn as_str(&self) -> &str {
        &self.text
    }

    /// Returns the text as one of Rust. It is not copied.
    #[inline]
    pub fn into_std(self) -> std::string::String {
        self.text
    }
}

impl<A: Allocator> PartialEq for String<A> {
    fn eq(&self, other: &Self) -> bool {
        self.text == other.text
    }
}

impl<A: Allocator> Eq for String<A> {}

impl<A: Allocator> fmt::Debug for String<A> {
    fn fmt(&self, f: &mut fmt::Formatter<'_>) -> fmt::Result {
        self.text.fmt(f)
    }
}
