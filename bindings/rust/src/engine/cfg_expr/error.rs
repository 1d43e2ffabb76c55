// Made of crates/cfg_expr/src/error.rt
// by bindings/rust/engine/make, which leaves its contracts out. Nobody edits this file.

//! Faults of texts.

pub use crate::engine::cfgx_fields::error::HasAtomicParseError;
pub use crate::engine::cfgx_syntax::error::{Failure, ParseError, Reason};
