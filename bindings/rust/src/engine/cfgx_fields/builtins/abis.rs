// Made of crates/cfgx_fields/src/builtins/abis.rt
// by bindings/rust/engine/make, which leaves its contracts out. Nobody edits this file.

//! The named ABIs.

use crate::engine::cfgx_fields::Abi;
use crate::engine::rattle::alloc::Allocator;

impl<'a, A: Allocator> Abi<'a, A> {
    /// The ABI `abi64`.
    pub const fn abi64() -> Self {
        Self::new_const("abi64")
    }

    /// The ABI `abiv2`.
    pub const fn abiv2() -> Self {
        Self::new_const("abiv2")
    }

    /// The ABI `abiv2hf`.
    pub const fn abiv2hf() -> Self {
        Self::new_const("abiv2hf")
    }

    /// The ABI `eabi`.
    pub const fn eabi() -> Self {
        Self::new_const("eabi")
    }

    /// The ABI `eabihf`.
    pub const fn eabihf() -> Self {
        Self::new_const("eabihf")
    }

    /// The ABI `elfv1`.
    pub const fn elfv1() -> Self {
        Self::new_const("elfv1")
    }

    /// The ABI `elfv2`.
    pub const fn elfv2() -> Self {
        Self::new_const("elfv2")
    }

    /// The ABI `fortanix`.
    pub const fn fortanix() -> Self {
        Self::new_const("fortanix")
    }

    /// The ABI `ilp32`.
    pub const fn ilp32() -> Self {
        Self::new_const("ilp32")
    }

    /// The ABI `ilp32e`.
    pub const fn ilp32e() -> Self {
        Self::new_const("ilp32e")
    }

    /// The ABI `llvm`.
    pub const fn llvm() -> Self {
        Self::new_const("llvm")
    }

    /// The ABI `macabi`.
    pub const fn macabi() -> Self {
        Self::new_const("macabi")
    }

    /// The ABI `pauthtest`.
    pub const fn pauthtest() -> Self {
        Self::new_const("pauthtest")
    }

    /// The ABI `sim`.
    pub const fn sim() -> Self {
        Self::new_const("sim")
    }

    /// The ABI `softfloat`.
    pub const fn softfloat() -> Self {
        Self::new_const("softfloat")
    }

    /// The ABI `spe`.
    pub const fn spe() -> Self {
        Self::new_const("spe")
    }

    /// The ABI `uwp`.
    pub const fn uwp() -> Self {
        Self::new_const("uwp")
    }

    /// The ABI `vec-extabi`.
    pub const fn vec_extabi() -> Self {
        Self::new_const("vec-extabi")
    }

    /// The ABI `x32`.
    pub const fn x32() -> Self {
        Self::new_const("x32")
    }
}
