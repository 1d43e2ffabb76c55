// Made of crates/cfgx_targets/src/table.rt
// by bindings/rust/engine/make, which leaves its contracts out. Nobody edits this file.

//! Tables of targets.

use crate::engine::cfgx_targets::info::TargetInfo;
use crate::engine::rattle::alloc::{Allocator, Global};
use crate::engine::rattle::prelude::{ListExt, Vec};
use std::fmt;

/// Targets in strictly increasing order of their triples, which are compared as bytes. Contracts
/// see the list of rows.
pub struct TargetTable<'a, A: Allocator = Global> {
    rows: Vec<TargetInfo<'a, A>, A>,
}

/// Rows whose triples do not strictly increase.
pub struct TableError<'a, A: Allocator = Global> {
    /// The index of the first row whose triple is not above the one before.
    pub index: usize,
    /// All rows, in their order.
    pub rows: Vec<TargetInfo<'a, A>, A>,
}

impl<'a, A: Allocator> TargetTable<'a, A> {
    /// Returns the table of `rows`. It allocates nothing.
    ///
    /// Returns an error if the triples do not strictly increase. The error has the rows, so that
    /// the caller can sort them and try again.
    pub fn from_rows(rows: Vec<TargetInfo<'a, A>, A>) -> Result<Self, TableError<'a, A>> {
        match first_not_above(rows.as_slice()) {
            Some(index) => Err(TableError { index, rows }),
            None => Ok(TargetTable { rows }),
        }
    }

    /// Returns the table of `rows`, whose triples increase.
    pub(crate) fn from_increasing(rows: Vec<TargetInfo<'a, A>, A>) -> Self {
        TargetTable { rows }
    }

    /// Returns the rows, in the order of their triples.
    pub fn rows(&self) -> &[TargetInfo<'a, A>] {
        self.rows.as_slice()
    }
}

// Returns the index of the first row whose triple is not above the one before.
fn first_not_above<A: Allocator>(rows: &[TargetInfo<'_, A>]) -> Option<usize> {
    for place in 1..rows.len() {
        let before = &rows[place - 1];
        let row = &rows[place];
        if before.triple.cmp(&row.triple).is_ge() {
            return Some(place);
        }
    }
    None
}

/// Returns the row of `table` with `triple`, or `None` if no row has it.
pub fn get_builtin_target_by_triple<'t, 'a, A: Allocator>(
    table: &'t TargetTable<'a, A>,
    triple: &str,
) -> Option<&'t TargetInfo<'a, A>> {
    let rows = table.rows();
    match rows.binary_search_by(|row| row.triple.as_str().cmp(triple)) {
        Ok(place) => Some(&rows[place]),
        Err(_) => None,
    }
}

impl<A: Allocator> fmt::Debug for TargetTable<'_, A> {
    fn fmt(&self, f: &mut fmt::Formatter) -> fmt::Result {
        f.debug_list().slice(self.rows()).finish()
    }
}

impl<A: Allocator> fmt::Debug for TableError<'_, A> {
    fn fmt(&self, f: &mut fmt::Formatter) -> fmt::Result {
        write!(f, "TableError at {} of ", self.index)?;
        f.debug_list().slice(self.rows.as_slice()).finish()
    }
}
