// Made of crates/cfgx_targets/src/list.rt
// by bindings/rust/engine/make, which leaves its contracts out. Nobody edits this file.

//! Sorted lists.

use crate::engine::rattle::alloc::{AllocError, Allocator, Global};
use crate::engine::rattle::borrow::CowSlice;
use crate::engine::rattle::prelude::Vec;
use std::cmp::Ordering;
use std::fmt;
use std::hash::{Hash, Hasher};

/// A value that may be in a sorted list: values that compare as equal are the same, and contracts
/// know what each prints.
pub trait Member: Ord + Hash + fmt::Debug + fmt::Display {}

/// A sorted list, which may have repeats, borrowed for `'a` or owned in the allocator `A`.
/// Contracts see the list of its members.
#[derive(Debug)]
pub struct SortedList<'a, T: Member, A: Allocator = Global> {
    pub(crate) items: CowSlice<'a, T, A>,
}

impl<'a, T: Member, A: Allocator> SortedList<'a, T, A> {
    /// Returns the sorted list of `items`, repeats included, in memory of `alloc`.
    ///
    /// Returns an error if `alloc` refuses it.
    pub fn new<I: Iterator<Item = T>>(alloc: A, items: I) -> Result<Self, AllocError> {
        let items = sorted(alloc, items)?;
        Ok(SortedList {
            items: CowSlice::Owned(items),
        })
    }

    /// Returns the list that owns `items`, which are sorted.
    pub(crate) fn from_sorted(items: Vec<T, A>) -> Self {
        SortedList {
            items: CowSlice::Owned(items),
        }
    }

    /// Returns the list that borrows `items`, which are sorted, and allocates nothing. `is_sorted`
    /// tests whether items are sorted.
    pub fn new_const(items: &'a [T]) -> Self {
        SortedList {
            items: CowSlice::Borrowed(items),
        }
    }

    /// Returns the members, in order.
    pub fn as_slice(&self) -> &[T] {
        self.items.as_slice()
    }

    /// Returns whether `item` is a member.
    pub(crate) fn has_member(&self, item: &T) -> bool {
        self.as_slice().binary_search(item).is_ok()
    }
}

/// Returns whether no item is below the one before it.
pub(crate) fn are_sorted<T: Member>(items: &[T]) -> bool {
    items.is_sorted()
}

impl<T: Member, A: Allocator> PartialEq for SortedList<'_, T, A> {
    fn eq(&self, other: &Self) -> bool {
        self.as_slice() == other.as_slice()
    }
}

impl<T: Member, A: Allocator> Eq for SortedList<'_, T, A> {}

impl<T: Member, A: Allocator> PartialOrd for SortedList<'_, T, A> {
    fn partial_cmp(&self, other: &Self) -> Option<Ordering> {
        self.as_slice().partial_cmp(other.as_slice())
    }
}

impl<T: Member, A: Allocator> Ord for SortedList<'_, T, A> {
    fn cmp(&self, other: &Self) -> Ordering {
        self.as_slice().cmp(other.as_slice())
    }
}

impl<T: Member, A: Allocator> Hash for SortedList<'_, T, A> {
    fn hash<H: Hasher>(&self, state: &mut H) {
        self.as_slice().hash(state);
    }
}

/// Prints the members between braces, with a comma and a space between two.
impl<T: Member, A: Allocator> fmt::Display for SortedList<'_, T, A> {
    fn fmt(&self, f: &mut fmt::Formatter) -> fmt::Result {
        f.write_str("{")?;
        write_members(f, self.as_slice())?;
        f.write_str("}")
    }
}

// Writes `members`, with a comma and a space between two.
fn write_members<T: Member>(f: &mut fmt::Formatter, members: &[T]) -> fmt::Result {
    match members.split_first() {
        Some((first, others)) => {
            write!(f, "{first}")?;
            write_others(f, others)
        }
        None => Ok(()),
    }
}

// Writes each of `members` after a comma and a space.
fn write_others<T: Member>(f: &mut fmt::Formatter, members: &[T]) -> fmt::Result {
    for member in members {
        write!(f, ", {member}")?;
    }
    Ok(())
}

// Returns the items in order. It pushes them one by one, since `collect` asks for less memory after
// `alloc` refused a growth.
fn sorted<T: Ord, A: Allocator, I: Iterator<Item = T>>(
    alloc: A,
    items: I,
) -> Result<Vec<T, A>, AllocError> {
    let mut sorted = Vec::new(alloc);
    for item in items {
        sorted.push(item)?;
    }
    sorted.sort_unstable();
    Ok(sorted)
}
