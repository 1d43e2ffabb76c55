// Made of crates/cfgx_fields/src/builtins.rt
// by bindings/rust/engine/make, which leaves its contracts out. Nobody edits this file.

//! The named values of the field types, which borrow their texts.
//!
//! A caller names the allocator if nothing else determines it: `Abi::<Global>::abi64()`.

mod abis;
mod architectures;
mod environments;
mod families;
mod panics;
mod systems;
mod vendors;
