// Made of crates/cfgx_fields/src/error.rt
// by bindings/rust/engine/make, which leaves its contracts out. Nobody edits this file.

//! The error for a text that names no width of atomics.

use crate::engine::cfgx_fields::Field;
use crate::engine::rattle::alloc::{AllocError, Allocator, Global};
use crate::engine::rattle::prelude::String;
use std::fmt;

// Marks a field as a text that names no width of atomics.
struct WidthKind;

/// A text that names no width of atomics. Contracts see it as that text.
#[derive(Debug)]
pub struct HasAtomicParseError<A: Allocator = Global> {
    text: Field<'static, WidthKind, A>,
}

/// Two errors are equal if their texts are.
impl<A: Allocator> PartialEq for HasAtomicParseError<A> {
    fn eq(&self, other: &Self) -> bool {
        self.text == other.text
    }
}

impl<A: Allocator> Eq for HasAtomicParseError<A> {}

impl<A: Allocator> HasAtomicParseError<A> {
    /// Returns the error for `text`, which is copied into `alloc`.
    ///
    /// # Errors
    ///
    /// `AllocError`: `alloc` refused memory.
    pub(crate) fn new(alloc: A, text: &str) -> Result<Self, AllocError> {
        Ok(HasAtomicParseError {
            text: Field::new(String::from_str(alloc, text)?),
        })
    }

    /// Returns an error equal to this one, whose text is copied into `alloc`.
    ///
    /// # Errors
    ///
    /// `AllocError`: `alloc` refused memory.
    pub fn try_clone(&self, alloc: A) -> Result<Self, AllocError> {
        Ok(HasAtomicParseError {
            text: self.text.try_clone(alloc)?,
        })
    }
}

impl<A: Allocator> fmt::Display for HasAtomicParseError<A> {
    fn fmt(&self, f: &mut fmt::Formatter) -> fmt::Result {
        f.write_str("expected integer or \"ptr\", found ")?;
        f.write_str(self.text.as_str())
    }
}
