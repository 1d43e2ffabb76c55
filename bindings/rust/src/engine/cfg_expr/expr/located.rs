// Made of crates/cfg_expr/src/expr/located.rt
// by bindings/rust/engine/make, which leaves its contracts out. Nobody edits this file.

//! The predicates of a condition where they stand in its text.

use crate::engine::cfgx_parser::located::LocatedPredicate;
use crate::engine::cfgx_parser::nodes::ExprNode;
use std::fmt;

/// The predicates of a condition where they stand, in the order in which they are asked. They have
/// the spans of their keys and values, and `Predicates` has the texts.
pub struct LocatedPredicates<'a> {
    pub(super) nodes: &'a [ExprNode],
    /// The places of the predicates that are left
    pub(super) places: &'a [usize],
}

impl LocatedPredicates<'_> {
    /// Returns the number of predicates that are left.
    pub fn left(&self) -> usize {
        self.places.len()
    }
}

/// Writes the name alone.
impl fmt::Debug for LocatedPredicates<'_> {
    fn fmt(&self, f: &mut fmt::Formatter) -> fmt::Result {
        f.debug_struct("LocatedPredicates").finish_non_exhaustive()
    }
}

impl Iterator for LocatedPredicates<'_> {
    type Item = LocatedPredicate;

    // Inlined, since `Predicates` yields each predicate by it.
    #[inline(always)]
    fn next(&mut self) -> Option<LocatedPredicate> {
        let (place, others) = self.places.split_first()?;
        self.places = others;
        match self.nodes.get(*place) {
            Some(ExprNode::Predicate(predicate)) => Some(*predicate),
            // By the invariant, a predicate stands at each place.
            _ => unreachable!(),
        }
    }
}
