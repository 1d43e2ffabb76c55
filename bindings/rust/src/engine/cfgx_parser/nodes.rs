// Made of crates/cfgx_parser/src/nodes.rt
// by bindings/rust/engine/make, which leaves its contracts out. Nobody edits this file.

//! The nodes of a tree.
pub(crate) mod writer;

use crate::engine::cfgx_parser::asked::Asked;
use crate::engine::cfgx_parser::function::Func;
use crate::engine::cfgx_parser::located::{LocatedPredicate, Span};

/// A node of a condition. The nodes are in source order: a function stands before its members.
#[derive(Clone, Copy, Debug)]
pub enum ExprNode {
    /// A function
    Fn {
        /// The function, with the number of its members
        func: Func,
        /// The number of nodes of its subtree, itself among them. The next node behind the
        /// subtree is so many places behind this one
        len: usize,
    },
    /// A predicate
    Predicate(LocatedPredicate),
    /// `true` or `false`
    Literal(bool),
}

/// `SmallVec` fills its unused inline room with this value. Nothing reads it.
// This is the longest variant. LLVM would build a shorter one elsewhere and copy it to each place.
impl Default for ExprNode {
    fn default() -> Self {
        let none = Span { start: 0, end: 0 };
        ExprNode::Predicate(LocatedPredicate {
            asked: Asked::Test,
            key: none,
            value: none,
        })
    }
}
