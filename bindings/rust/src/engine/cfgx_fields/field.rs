// Made of crates/cfgx_fields/src/field.rt
// by bindings/rust/engine/make, which leaves its contracts out. Nobody edits this file.

//! The type behind all field types: a borrowed or owned text with its kind.

use crate::engine::rattle::alloc::{AllocError, Allocator, Global};
use crate::engine::rattle::borrow::CowStr;
use crate::engine::rattle::prelude::String;
use std::cmp::Ordering;
use std::fmt;
use std::hash::{Hash, Hasher};
use std::marker::PhantomData;

/// A text of the kind `K`, borrowed for `'a` or owned in the allocator `A`.
///
/// Contracts see the list of its bytes. `==`, the order and the hash are those of `str`, so they
/// do not depend on who owns the text. Fields of two kinds have two types.
pub struct Field<'a, K, A: Allocator = Global> {
    text: CowStr<'a, A>,
    kind: PhantomData<K>,
}

impl<'a, K, A: Allocator> Field<'a, K, A> {
    /// Returns a field that owns `text`. It allocates nothing.
    pub fn new(text: String<A>) -> Self {
        Field {
            text: CowStr::Owned(text),
            kind: PhantomData,
        }
    }

    /// Returns a field that borrows `text`. It allocates nothing.
    pub const fn new_const(text: &'a str) -> Self {
        Field {
            text: CowStr::Borrowed(text),
            kind: PhantomData,
        }
    }

    /// Returns the text.
    pub fn as_str(&self) -> &str {
        self.text.as_str()
    }

    /// Returns a field equal to this one. A borrowed text is borrowed again, and an owned one is
    /// copied into `alloc`.
    ///
    /// # Errors
    ///
    /// `AllocError`: `alloc` refused memory.
    pub fn try_clone(&self, alloc: A) -> Result<Self, AllocError> {
        match &self.text {
            CowStr::Borrowed(text) => Ok(Field::new_const(*text)),
            CowStr::Owned(text) => Ok(Field::new(String::from_str(alloc, text.as_str())?)),
        }
    }
}

impl<K, A: Allocator> PartialEq for Field<'_, K, A> {
    fn eq(&self, other: &Self) -> bool {
        self.as_str() == other.as_str()
    }
}

impl<K, A: Allocator> Eq for Field<'_, K, A> {}

impl<K, A: Allocator> PartialOrd for Field<'_, K, A> {
    fn partial_cmp(&self, other: &Self) -> Option<Ordering> {
        Some(self.cmp(other))
    }
}

impl<K, A: Allocator> Ord for Field<'_, K, A> {
    fn cmp(&self, other: &Self) -> Ordering {
        self.as_str().cmp(other.as_str())
    }
}

impl<K, A: Allocator> Hash for Field<'_, K, A> {
    fn hash<H: Hasher>(&self, state: &mut H) {
        self.as_str().hash(state);
    }
}

impl<K, A: Allocator> fmt::Display for Field<'_, K, A> {
    fn fmt(&self, f: &mut fmt::Formatter) -> fmt::Result {
        f.pad(self.as_str())
    }
}

impl<K, A: Allocator> fmt::Debug for Field<'_, K, A> {
    fn fmt(&self, f: &mut fmt::Formatter) -> fmt::Result {
        let text = self.as_str();
        fmt::Debug::fmt(&text, f)
    }
}
