// Made of crates/cfg_expr/src/expr/matcher.rt
// by bindings/rust/engine/make, which leaves its contracts out. Nobody edits this file.

//! Whether a target meets a predicate.

use super::TargetPredicate;
use crate::engine::cfgx_fields::Field;
use crate::engine::cfgx_fields::text_key::TextKey;
use crate::engine::cfgx_syntax::logic::Kleene64;
use crate::engine::cfgx_targets::info::TargetInfo;
use crate::engine::rattle::alloc::{AllocError, Allocator};

/// A target of which predicates are asked. A caller's own type may be one.
pub trait TargetMatcher {
    /// Whether the predicate `tp` is true of this target.
    fn matches(&self, tp: &TargetPredicate<'_>) -> bool;
}

/// A missing `abi` or `env` is read as `""`, a missing `os` as `none`, and a missing `vendor` as
/// `unknown`.
impl<A: Allocator> TargetMatcher for TargetInfo<'_, A> {
    fn matches(&self, tp: &TargetPredicate<'_>) -> bool {
        use TargetPredicate::*;
        match tp {
            Abi(abi) => has_text(TextKey::Abi, &self.abi, abi.as_str()),
            Arch(arch) => self.arch.as_str() == arch.as_str(),
            Endian(endian) => self.endian == *endian,
            Env(env) => has_text(TextKey::Env, &self.env, env.as_str()),
            Family(family) => self.families.contains(family),
            HasAtomic(width) => self.has_atomics.contains(*width),
            Os(os) => has_text(TextKey::Os, &self.os, os.as_str()),
            Panic(panic) => self.panic.as_str() == panic.as_str(),
            PointerWidth(bits) => self.pointer_width == *bits,
            Vendor(vendor) => has_text(TextKey::Vendor, &self.vendor, vendor.as_str()),
        }
    }
}

/// Whether `field`, which is that of `key`, has the text `text`.
fn has_text<K, A: Allocator>(key: TextKey, field: &Option<Field<'_, K, A>>, text: &str) -> bool {
    let own = match field {
        Some(field) => Some(field.as_str()),
        None => key.text_if_missing(),
    };
    match own {
        Some(own) => own == text,
        None => false,
    }
}

/// Returns the answers of the rows: lane `i` is that of row `i`.
fn answers_of<T: TargetMatcher>(predicate: &TargetPredicate<'_>, rows: &[T]) -> Kleene64 {
    let mut answers = Kleene64::new(0, 0);
    let mut left = rows;
    while let Some((row, before)) = left.split_last() {
        answers = answers.push_front(Some(row.matches(predicate)));
        left = before;
    }
    answers
}

impl<'a, A: Allocator> TargetPredicate<'a, A> {
    /// Whether the predicate is true of `target`.
    pub fn matches<T: TargetMatcher>(&self, target: &T) -> bool {
        target.matches(&self.borrowed())
    }

    /// Returns the answers of at most 64 targets: lane `i` is that of row `i`, and the lanes past
    /// the rows are unknown. It takes no memory.
    pub fn lanes<T: TargetMatcher>(&self, rows: &[T]) -> Kleene64 {
        answers_of(&self.borrowed(), rows)
    }

    /// Returns the predicate with its text borrowed, so that a matcher does not depend on the
    /// allocator that may own the text.
    fn borrowed(&self) -> TargetPredicate<'_> {
        let (asked, text) = self.parts();
        TargetPredicate::of(asked, text)
    }

    /// Returns an equal predicate. A borrowed text is borrowed again and takes no memory; an owned
    /// one is copied into `alloc`.
    ///
    /// # Errors
    ///
    /// `AllocError`: `alloc` refused memory.
    pub fn try_clone(&self, alloc: A) -> Result<Self, AllocError> {
        match self {
            TargetPredicate::Abi(abi) => Ok(TargetPredicate::Abi(abi.try_clone(alloc)?)),
            TargetPredicate::Arch(arch) => Ok(TargetPredicate::Arch(arch.try_clone(alloc)?)),
            TargetPredicate::Endian(endian) => Ok(TargetPredicate::Endian(*endian)),
            TargetPredicate::Env(env) => Ok(TargetPredicate::Env(env.try_clone(alloc)?)),
            TargetPredicate::Family(family) => {
                Ok(TargetPredicate::Family(family.try_clone(alloc)?))
            }
            TargetPredicate::HasAtomic(width) => Ok(TargetPredicate::HasAtomic(*width)),
            TargetPredicate::Os(os) => Ok(TargetPredicate::Os(os.try_clone(alloc)?)),
            TargetPredicate::Panic(panic) => Ok(TargetPredicate::Panic(panic.try_clone(alloc)?)),
            TargetPredicate::PointerWidth(bits) => Ok(TargetPredicate::PointerWidth(*bits)),
            TargetPredicate::Vendor(vendor) => {
                Ok(TargetPredicate::Vendor(vendor.try_clone(alloc)?))
            }
        }
    }
}
