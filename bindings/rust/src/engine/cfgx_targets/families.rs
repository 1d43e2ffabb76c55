// Made of crates/cfgx_targets/src/families.rt
// by bindings/rust/engine/make, which leaves its contracts out. Nobody edits this file.

//! Lists of families.

use crate::engine::cfgx_fields::Family;
use crate::engine::cfgx_targets::list::{Member, SortedList, are_sorted};
use crate::engine::rattle::alloc::{AllocError, Allocator, Global};
use crate::engine::rattle::borrow::CowSlice;
use crate::engine::rattle::prelude::Vec;

/// A sorted list of families. Contracts see their texts.
pub type Families<'a, A = Global> = SortedList<'a, Family<'a, A>, A>;

impl<A: Allocator> Member for Family<'_, A> {}

impl<'a, A: Allocator> SortedList<'a, Family<'a, A>, A> {
    /// Returns whether no family is below the one before it.
    pub fn is_sorted(families: &[Family<'_, A>]) -> bool {
        are_sorted(families)
    }

    /// Returns whether a member has the text of `family`.
    pub fn contains(&self, family: &Family<'_>) -> bool {
        let text = family.as_str();
        self.as_slice()
            .binary_search_by(|member| member.as_str().cmp(text))
            .is_ok()
    }

    /// Returns a list equal to this one. A borrowed list is borrowed again, and an owned one is
    /// copied into `alloc`, with the texts that it owns.
    ///
    /// Returns an error if `alloc` refuses a copy.
    pub fn try_clone(&self, alloc: A) -> Result<Self, AllocError>
    where
        A: Copy,
    {
        match &self.items {
            CowSlice::Borrowed(families) => Ok(SortedList::new_const(*families)),
            CowSlice::Owned(families) => {
                let copies = copied(alloc, families.as_slice())?;
                Ok(SortedList::from_sorted(copies))
            }
        }
    }
}

// Returns copies of `families`, in memory of `alloc`.
fn copied<'a, A: Allocator + Copy>(
    alloc: A,
    families: &[Family<'a, A>],
) -> Result<Vec<Family<'a, A>, A>, AllocError> {
    let mut copies = Vec::with_capacity(alloc, families.len())?;
    for family in families {
        copies.push(family.try_clone(alloc)?)?;
    }
    Ok(copies)
}
