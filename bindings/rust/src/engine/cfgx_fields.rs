// Made of crates/cfgx_fields/src/lib.rt
// by bindings/rust/engine/make, which leaves its contracts out. Nobody edits this file.

//! The field types of a target, with their named values, and how the values of its keys are read.
//!
//! Each field that is a text has a type of its own, such as `Arch` or `Os`.

use crate::engine::rattle::alloc::Global;

pub mod atomic;
mod builtins;
pub mod endian;
pub mod error;
mod field;
pub mod reading;
pub mod text_key;

pub use field::Field;

/// Marks a field as a triple.
#[derive(Debug)]
pub struct TripleKind;

/// Marks a field as an ABI.
#[derive(Debug)]
pub struct AbiKind;

/// Marks a field as an architecture.
#[derive(Debug)]
pub struct ArchKind;

/// Marks a field as a vendor.
#[derive(Debug)]
pub struct VendorKind;

/// Marks a field as an operating system.
#[derive(Debug)]
pub struct OsKind;

/// Marks a field as a family.
#[derive(Debug)]
pub struct FamilyKind;

/// Marks a field as an environment.
#[derive(Debug)]
pub struct EnvKind;

/// Marks a field as a panic strategy.
#[derive(Debug)]
pub struct PanicKind;

/// The name of a whole target, such as `x86_64-unknown-linux-gnu`.
pub type Triple<'a, A = Global> = Field<'a, TripleKind, A>;

/// The value of `target_abi`, such as `eabihf`.
pub type Abi<'a, A = Global> = Field<'a, AbiKind, A>;

/// The value of `target_arch`, such as `x86_64`.
pub type Arch<'a, A = Global> = Field<'a, ArchKind, A>;

/// The value of `target_vendor`, such as `apple`.
pub type Vendor<'a, A = Global> = Field<'a, VendorKind, A>;

/// The value of `target_os`, such as `linux`.
pub type Os<'a, A = Global> = Field<'a, OsKind, A>;

/// The value of `target_family`, such as `unix`.
pub type Family<'a, A = Global> = Field<'a, FamilyKind, A>;

/// The value of `target_env`, such as `musl`.
pub type Env<'a, A = Global> = Field<'a, EnvKind, A>;

/// The value of `panic`, such as `unwind`.
pub type Panic<'a, A = Global> = Field<'a, PanicKind, A>;
