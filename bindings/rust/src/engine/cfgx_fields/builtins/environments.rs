// Made of crates/cfgx_fields/src/builtins/environments.rt
// by bindings/rust/engine/make, which leaves its contracts out. Nobody edits this file.

//! The named environments.

use crate::engine::cfgx_fields::Env;
use crate::engine::rattle::alloc::Allocator;

impl<'a, A: Allocator> Env<'a, A> {
    /// The environment `gnu`.
    pub const fn gnu() -> Self {
        Self::new_const("gnu")
    }

    /// The environment `macabi`.
    pub const fn macabi() -> Self {
        Self::new_const("macabi")
    }

    /// The environment `mlibc`.
    pub const fn mlibc() -> Self {
        Self::new_const("mlibc")
    }

    /// The environment `msvc`.
    pub const fn msvc() -> Self {
        Self::new_const("msvc")
    }

    /// The environment `musl`.
    pub const fn musl() -> Self {
        Self::new_const("musl")
    }

    /// The environment `newlib`.
    pub const fn newlib() -> Self {
        Self::new_const("newlib")
    }

    /// The environment `nto70`.
    pub const fn nto70() -> Self {
        Self::new_const("nto70")
    }

    /// The environment `nto71`.
    pub const fn nto71() -> Self {
        Self::new_const("nto71")
    }

    /// The environment `nto71_iosock`.
    pub const fn nto71_iosock() -> Self {
        Self::new_const("nto71_iosock")
    }

    /// The environment `ohos`.
    pub const fn ohos() -> Self {
        Self::new_const("ohos")
    }

    /// The environment `p1`.
    pub const fn p1() -> Self {
        Self::new_const("p1")
    }

    /// The environment `p2`.
    pub const fn p2() -> Self {
        Self::new_const("p2")
    }

    /// The environment `p3`.
    pub const fn p3() -> Self {
        Self::new_const("p3")
    }

    /// The environment `relibc`.
    pub const fn relibc() -> Self {
        Self::new_const("relibc")
    }

    /// The environment `sgx`.
    pub const fn sgx() -> Self {
        Self::new_const("sgx")
    }

    /// The environment `sim`.
    pub const fn sim() -> Self {
        Self::new_const("sim")
    }

    /// The environment `uclibc`.
    pub const fn uclibc() -> Self {
        Self::new_const("uclibc")
    }

    /// The environment `v5`.
    pub const fn v5() -> Self {
        Self::new_const("v5")
    }
}
