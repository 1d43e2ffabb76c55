// Made of crates/cfgx_fields/src/builtins/panics.rt
// by bindings/rust/engine/make, which leaves its contracts out. Nobody edits this file.

//! The named panic strategies.

use crate::engine::cfgx_fields::Panic;
use crate::engine::rattle::alloc::Allocator;

impl<'a, A: Allocator> Panic<'a, A> {
    /// The panic strategy `abort`.
    pub const fn abort() -> Self {
        Self::new_const("abort")
    }

    /// The panic strategy `unwind`.
    pub const fn unwind() -> Self {
        Self::new_const("unwind")
    }
}
