//! Allocators, and the errors of calls that are refused memory.

use std::fmt::{Debug, Formatter, Result};
use std::hash::Hash;

/// What stands for the allocator of the program. What is derived for a type that names one asks
/// for the traits above this one.
pub trait Allocator: Debug + Hash {}

/// The allocator of the program.
#[derive(Clone, Copy, Debug, Default, PartialEq, Eq, PartialOrd, Ord, Hash)]
pub struct Global;

impl Allocator for Global {}

impl<A: Allocator> Allocator for &A {}

/// Memory was refused, or more was asked for than a block can have.
#[derive(Clone, Copy, Debug, PartialEq, Eq)]
pub struct AllocError;

/// Memory for a value was refused. The value comes back.
pub struct AllocFailed<T> {
    /// The value.
    pub value: T,
}

/// Prints no value, which may have no `Debug`.
impl<T> Debug for AllocFailed<T> {
    fn fmt(&self, f: &mut Formatter<'_>) -> Result {
        f.debug_struct("AllocFailed").finish_non_exhaustive()
    }
}

impl<T> From<AllocFailed<T>> for AllocError {
    fn from(_refused: AllocFailed<T>) -> AllocError {
        AllocError
    }
}
