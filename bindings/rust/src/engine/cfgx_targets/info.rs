// Made of crates/cfgx_targets/src/info.rt
// by bindings/rust/engine/make, which leaves its contracts out. Nobody edits this file.

//! The description of a target.

use crate::engine::cfgx_fields::endian::Endian;
use crate::engine::cfgx_fields::{Abi, Arch, Env, Field, Os, Panic, Triple, Vendor};
use crate::engine::cfgx_targets::atomics::HasAtomics;
use crate::engine::cfgx_targets::families::Families;
use crate::engine::rattle::alloc::{AllocError, Allocator, Global};
use std::hash::Hash;

mod comparing;

/// The values that the predicates on a target ask for. `None` means that the target has no such
/// value. Texts are borrowed for `'a` or owned in the allocator `A`.
///
/// Targets are in the order of their first field that differs.
#[derive(Debug, Hash)]
pub struct TargetInfo<'a, A: Allocator = Global> {
    /// The name of the target.
    pub triple: Triple<'a, A>,
    /// The operating system, `target_os`.
    pub os: Option<Os<'a, A>>,
    /// The ABI, `target_abi`, if it distinguishes targets.
    pub abi: Option<Abi<'a, A>>,
    /// The architecture, `target_arch`.
    pub arch: Arch<'a, A>,
    /// The ABI or libc, `target_env`, if it distinguishes targets.
    pub env: Option<Env<'a, A>>,
    /// The vendor, `target_vendor`.
    pub vendor: Option<Vendor<'a, A>>,
    /// The families, `target_family`.
    pub families: Families<'a, A>,
    /// The number of bits of a pointer, `target_pointer_width`.
    pub pointer_width: u8,
    /// The byte order, `target_endian`.
    pub endian: Endian,
    /// The widths of atomics, `target_has_atomic`.
    pub has_atomics: HasAtomics<A>,
    /// The panic strategy, `panic`.
    pub panic: Panic<'a, A>,
}

// Returns a copy of `field`, in memory of `alloc`.
fn copied_field<'a, K, A: Allocator>(
    field: &Option<Field<'a, K, A>>,
    alloc: A,
) -> Result<Option<Field<'a, K, A>>, AllocError> {
    match field {
        Some(field) => Ok(Some(field.try_clone(alloc)?)),
        None => Ok(None),
    }
}

impl<'a, A: Allocator + Copy> TargetInfo<'a, A> {
    /// Returns a target equal to this one. Borrowed texts and lists are borrowed again, and owned
    /// ones are copied into `alloc`.
    ///
    /// Returns an error if `alloc` refuses a copy.
    pub fn try_clone(&self, alloc: A) -> Result<Self, AllocError> {
        Ok(TargetInfo {
            triple: self.triple.try_clone(alloc)?,
            os: copied_field(&self.os, alloc)?,
            abi: copied_field(&self.abi, alloc)?,
            arch: self.arch.try_clone(alloc)?,
            env: copied_field(&self.env, alloc)?,
            vendor: copied_field(&self.vendor, alloc)?,
            families: self.families.try_clone(alloc)?,
            pointer_width: self.pointer_width,
            endian: self.endian,
            has_atomics: self.has_atomics.try_clone(alloc)?,
            panic: self.panic.try_clone(alloc)?,
        })
    }
}
