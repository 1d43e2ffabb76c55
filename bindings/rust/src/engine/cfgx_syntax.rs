// Made of crates/cfgx_syntax/src/lib.rt
// by bindings/rust/engine/make, which leaves its contracts out. Nobody edits this file.

//! The tokens of a `cfg()` text, its faults, the values that it can have, and the allocators of
//! expressions.

pub mod error;
pub mod lexer;
pub mod logic;
pub mod memory;
pub mod stripping;
