// Made of crates/cfgx_fields/src/builtins/families.rt
// by bindings/rust/engine/make, which leaves its contracts out. Nobody edits this file.

//! The named families.

use crate::engine::cfgx_fields::Family;
use crate::engine::rattle::alloc::Allocator;

impl<'a, A: Allocator> Family<'a, A> {
    /// The family `unix`.
    pub const fn unix() -> Self {
        Self::new_const("unix")
    }

    /// The family `wasm`.
    pub const fn wasm() -> Self {
        Self::new_const("wasm")
    }

    /// The family `windows`.
    pub const fn windows() -> Self {
        Self::new_const("windows")
    }
}
