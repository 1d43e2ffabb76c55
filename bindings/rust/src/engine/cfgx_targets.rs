// Made of crates/cfgx_targets/src/lib.rt
// by bindings/rust/engine/make, which leaves its contracts out. Nobody edits this file.

//! Compilation targets, as the conditions of `cfg()` see them.

pub mod atomics;
pub mod builtins;
pub mod families;
pub mod info;
pub mod list;
pub mod table;
