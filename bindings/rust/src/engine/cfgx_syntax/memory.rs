// Made of crates/cfgx_syntax/src/memory.rt
// by bindings/rust/engine/make, which leaves its contracts out. Nobody edits this file.

//! The allocators of expressions.
use crate::engine::rattle::alloc::{Allocator, Global};

/// A copyable allocator handle of at most 2^32 bytes, such as a reference.
///
/// The vectors of an expression store the handle beside their inline elements, so its size is part
/// of theirs. Every `&A` is such a handle, so any other allocator is passed as `&alloc`.
pub trait SmallAllocator: Allocator + Copy {}

impl SmallAllocator for Global {}

impl<A: Allocator> SmallAllocator for &A {}
