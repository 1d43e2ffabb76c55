// Made of crates/cfgx_fields/src/builtins/vendors.rt
// by bindings/rust/engine/make, which leaves its contracts out. Nobody edits this file.

//! The named vendors.

use crate::engine::cfgx_fields::Vendor;
use crate::engine::rattle::alloc::Allocator;

impl<'a, A: Allocator> Vendor<'a, A> {
    /// The vendor `amd`.
    pub const fn amd() -> Self {
        Self::new_const("amd")
    }

    /// The vendor `apple`.
    pub const fn apple() -> Self {
        Self::new_const("apple")
    }

    /// The vendor `espressif`.
    pub const fn espressif() -> Self {
        Self::new_const("espressif")
    }

    /// The vendor `fortanix`.
    pub const fn fortanix() -> Self {
        Self::new_const("fortanix")
    }

    /// The vendor `ibm`.
    pub const fn ibm() -> Self {
        Self::new_const("ibm")
    }

    /// The vendor `kmc`.
    pub const fn kmc() -> Self {
        Self::new_const("kmc")
    }

    /// The vendor `mti`.
    pub const fn mti() -> Self {
        Self::new_const("mti")
    }

    /// The vendor `nintendo`.
    pub const fn nintendo() -> Self {
        Self::new_const("nintendo")
    }

    /// The vendor `nvidia`.
    pub const fn nvidia() -> Self {
        Self::new_const("nvidia")
    }

    /// The vendor `openwrt`.
    pub const fn openwrt() -> Self {
        Self::new_const("openwrt")
    }

    /// The vendor `pc`.
    pub const fn pc() -> Self {
        Self::new_const("pc")
    }

    /// The vendor `risc0`.
    pub const fn risc0() -> Self {
        Self::new_const("risc0")
    }

    /// The vendor `sony`.
    pub const fn sony() -> Self {
        Self::new_const("sony")
    }

    /// The vendor `sun`.
    pub const fn sun() -> Self {
        Self::new_const("sun")
    }

    /// The vendor `unikraft`.
    pub const fn unikraft() -> Self {
        Self::new_const("unikraft")
    }

    /// The vendor `unknown`.
    pub const fn unknown() -> Self {
        Self::new_const("unknown")
    }

    /// The vendor `uwp`.
    pub const fn uwp() -> Self {
        Self::new_const("uwp")
    }

    /// The vendor `vex`.
    pub const fn vex() -> Self {
        Self::new_const("vex")
    }

    /// The vendor `win7`.
    pub const fn win7() -> Self {
        Self::new_const("win7")
    }

    /// The vendor `wrs`.
    pub const fn wrs() -> Self {
        Self::new_const("wrs")
    }
}
