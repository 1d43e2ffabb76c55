// Made of crates/cfgx_parser/src/lib.rt
// by bindings/rust/engine/make, which leaves its contracts out. Nobody edits this file.

//! From a `cfg()` text to the nodes of its tree, in one pass.

pub mod asked;
mod classification;
pub mod function;
pub mod located;
pub mod nodes;
pub mod parser;
pub mod unaskable;
