//! What the library of Rattle has and that of Rust has not, as far as the engine uses it.
//!
//! In Rattle, each call that takes memory may be refused it, and returns an error then. So a
//! collection here is one of Rust whose calls return a `Result`. The calls of the engine are passed
//! an allocator too. Here it only names the allocator of the program, which gives all memory.

#![warn(clippy::complexity, clippy::style)]

pub(crate) mod alloc;
pub(crate) mod borrow;
mod fmt;
pub(crate) mod smallvec;
mod string;
mod vec;

/// The names that each file of Rattle has without an import.
pub(crate) mod prelude {
    pub(crate) use super::fmt::{FormatterExt, ListExt};
    pub(crate) use super::string::String;
    pub(crate) use super::vec::{Vec, vec};
}
