// Made of crates/cfgx_targets/src/atomics.rt
// by bindings/rust/engine/make, which leaves its contracts out. Nobody edits this file.

//! Lists of widths of atomics.

use crate::engine::cfgx_fields::atomic::HasAtomic;
use crate::engine::cfgx_targets::list::{Member, SortedList, are_sorted};
use crate::engine::rattle::alloc::{AllocError, Allocator, Global};
use crate::engine::rattle::borrow::CowSlice;
use crate::engine::rattle::prelude::Vec;

/// A sorted list of widths of atomics.
pub type HasAtomics<A = Global> = SortedList<'static, HasAtomic, A>;

impl Member for HasAtomic {}

// This impl fixes the allocator, so that a call of `is_sorted` need not name it.
impl SortedList<'static, HasAtomic> {
    /// Returns whether no width is below the one before it.
    pub fn is_sorted(widths: &[HasAtomic]) -> bool {
        are_sorted(widths)
    }
}

impl<'a, A: Allocator> SortedList<'a, HasAtomic, A> {
    /// Returns whether `width` is a member.
    pub fn contains(&self, width: HasAtomic) -> bool {
        self.has_member(&width)
    }

    /// Returns a list equal to this one. A borrowed list is borrowed again, and an owned one is
    /// copied into `alloc`.
    ///
    /// Returns an error if `alloc` refuses the copy.
    pub fn try_clone(&self, alloc: A) -> Result<Self, AllocError> {
        match &self.items {
            CowSlice::Borrowed(widths) => Ok(SortedList::new_const(*widths)),
            CowSlice::Owned(widths) => Ok(SortedList::from_sorted(Vec::from_slice(
                alloc,
                widths.as_slice(),
            )?)),
        }
    }
}
