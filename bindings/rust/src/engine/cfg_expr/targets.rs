// Made of crates/cfg_expr/src/targets.rt
// by bindings/rust/engine/make, which leaves its contracts out. Nobody edits this file.

//! Targets, their fields, and tables of them.

pub use crate::engine::cfgx_fields::atomic::{HasAtomic, HasAtomicFailure};
pub use crate::engine::cfgx_fields::endian::Endian;
pub use crate::engine::cfgx_fields::text_key::TextKey;
pub use crate::engine::cfgx_fields::{Abi, Arch, Env, Family, Os, Panic, Triple, Vendor};
pub use crate::engine::cfgx_targets::atomics::HasAtomics;
pub use crate::engine::cfgx_targets::builtins;
pub use crate::engine::cfgx_targets::builtins::rustc_version;
pub use crate::engine::cfgx_targets::families::Families;
pub use crate::engine::cfgx_targets::info::TargetInfo;
pub use crate::engine::cfgx_targets::table::{
    TableError, TargetTable, get_builtin_target_by_triple,
};
