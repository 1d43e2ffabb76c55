// Made of crates/cfgx_fields/src/atomic.rt
// by bindings/rust/engine/make, which leaves its contracts out. Nobody edits this file.

//! The width of an atomic, its text and its errors.

use crate::engine::cfgx_fields::error::HasAtomicParseError;
use crate::engine::cfgx_fields::reading::read_has_atomic;
use crate::engine::rattle::alloc::{AllocError, Allocator, Global};
use crate::engine::rattle::prelude::FormatterExt;
use std::fmt;

mod order;

/// A width of atomics. Numbers of bits are in order, and below the width of a pointer.
#[derive(Clone, Copy, Debug, PartialEq, Eq, Hash)]
pub enum HasAtomic {
    /// A number of bits.
    IntegerSize(u16),
    /// The width of a pointer.
    Pointer,
}

/// The error of `HasAtomic::read`.
#[derive(Debug)]
pub enum HasAtomicFailure<A: Allocator = Global> {
    /// The text names no width.
    Parse(HasAtomicParseError<A>),
    /// The text names no width, and there is no memory for the copy of it.
    Memory(AllocError),
}

/// Two failures are equal if both have the same text, or both are out of memory.
impl<A: Allocator> PartialEq for HasAtomicFailure<A> {
    fn eq(&self, other: &Self) -> bool {
        match (self, other) {
            (HasAtomicFailure::Parse(one), HasAtomicFailure::Parse(other)) => *one == *other,
            (HasAtomicFailure::Memory(_), HasAtomicFailure::Memory(_)) => true,
            _ => false,
        }
    }
}

impl<A: Allocator> Eq for HasAtomicFailure<A> {}

impl<A: Allocator> From<HasAtomicParseError<A>> for HasAtomicFailure<A> {
    fn from(error: HasAtomicParseError<A>) -> Self {
        HasAtomicFailure::Parse(error)
    }
}

impl<A: Allocator> From<AllocError> for HasAtomicFailure<A> {
    fn from(error: AllocError) -> Self {
        HasAtomicFailure::Memory(error)
    }
}

impl HasAtomic {
    /// Reads a number of bits, at most 65535, or `ptr`. It reads what `Display` prints.
    ///
    /// A text that names a width takes no memory. Any other text is copied into `alloc` for the
    /// error.
    ///
    /// # Errors
    ///
    /// `HasAtomicFailure::Parse`: the text names no width. `HasAtomicFailure::Memory`: it names
    /// none, and `alloc` refused memory for the copy.
    pub fn read<A: Allocator>(alloc: A, text: &str) -> Result<HasAtomic, HasAtomicFailure<A>> {
        match read_has_atomic(text) {
            Some(width) => Ok(width),
            None => Err(HasAtomicParseError::new(alloc, text)?.into()),
        }
    }
}

impl fmt::Display for HasAtomic {
    fn fmt(&self, f: &mut fmt::Formatter) -> fmt::Result {
        match self {
            HasAtomic::IntegerSize(bits) => f.write(*bits),
            HasAtomic::Pointer => f.write_str("ptr"),
        }
    }
}
