// Made of crates/cfg_expr/src/lib.rt
// by bindings/rust/engine/make, which leaves its contracts out. Nobody edits this file.

//! Conditions of Rust's `#[cfg(..)]`: parses them, lists their predicates and evaluates them.

pub mod error;
pub mod expr;
pub mod targets;

pub use crate::engine::cfgx_syntax::memory;
pub use error::ParseError;
pub use expr::{Asked, Decision, Expression, Predicate, TargetPredicate};
