// Made of crates/cfgx_targets/src/info/comparing.rt
// by bindings/rust/engine/make, which leaves its contracts out. Nobody edits this file.

//! The equality and the order of targets.

use super::TargetInfo;
use crate::engine::rattle::alloc::Allocator;
use std::cmp::Ordering;

impl<A: Allocator> PartialEq for TargetInfo<'_, A> {
    fn eq(&self, other: &Self) -> bool {
        self.triple == other.triple
            && self.os == other.os
            && self.abi == other.abi
            && self.arch == other.arch
            && self.env == other.env
            && self.vendor == other.vendor
            && self.families == other.families
            && self.pointer_width == other.pointer_width
            && self.endian == other.endian
            && self.has_atomics == other.has_atomics
            && self.panic == other.panic
    }
}

impl<A: Allocator> Eq for TargetInfo<'_, A> {}

impl<A: Allocator> PartialOrd for TargetInfo<'_, A> {
    fn partial_cmp(&self, other: &Self) -> Option<Ordering> {
        Some(self.cmp(other))
    }
}

impl<A: Allocator> Ord for TargetInfo<'_, A> {
    fn cmp(&self, other: &Self) -> Ordering {
        self.triple
            .cmp(&other.triple)
            .then(self.os.cmp(&other.os))
            .then(self.abi.cmp(&other.abi))
            .then(self.arch.cmp(&other.arch))
            .then(self.env.cmp(&other.env))
            .then(self.vendor.cmp(&other.vendor))
            .then(self.families.cmp(&other.families))
            .then(self.pointer_width.cmp(&other.pointer_width))
            .then(self.endian.cmp(&other.endian))
            .then(self.has_atomics.cmp(&other.has_atomics))
            .then(self.panic.cmp(&other.panic))
    }
}
