//! Conditions of `#[cfg(..)]`, such as `all(unix, feature = "x")`: parses them, lists their
//! predicates and evaluates them.
//!
//! This crate has the names and signatures of [`cfg-expr`](https://docs.rs/cfg-expr/0.20) 0.20.10,
//! but for the table [below](#what-differs). If none of these differences matters to a program, it
//! changes one line of its manifest, in which `../cfgx` stands for the folder of the repository:
//!
//! ```toml
//! cfg-expr = { package = "cfgx", path = "../cfgx/bindings/rust" }
//! ```
//!
//! Its engine is proved in Rattle, which is Rust with contracts, and stands in this crate without
//! these contracts, compiled by rustc. [`Expression`], [`Lexer`](expr::lexer::Lexer) and
//! [`audit()`] call it. Targets and their fields are code of this crate, which is tested, and not
//! proved.
//!
//! ```
//! use cfgx as cfg_expr;
//! use cfg_expr::{Expression, Predicate, targets::get_builtin_target_by_triple};
//!
//! let target = get_builtin_target_by_triple("aarch64-apple-darwin").unwrap();
//! let expression = Expression::parse("cfg(all(unix, not(feature = \"x\")))")?;
//! assert!(expression.eval(|predicate| match predicate {
//!     Predicate::Target(asked) => asked.matches(target),
//!     _ => false,
//! }));
//! # Ok::<(), cfg_expr::ParseError>(())
//! ```
//!
//! What `cfg-expr` does not have: [`Expression::decide`], [`audit()`],
//! [`builtin_facts`](targets::builtin_facts),
//! [`TargetInfo::from_rustc_cfg`](targets::TargetInfo::from_rustc_cfg) and
//! [`Rustc`](targets::Rustc).
//!
//! # What differs
//!
#![doc = include_str!("differences.txt")]
//!
//! # The feature `targets`
//!
//! With it, this crate passes on the crate `target_lexicon`, and its triples are targets. Without
//! it, which is the default, Cargo neither locks nor compiles that crate.
//!
//! # Memory
//!
//! A call that gets no memory ends the process by
//! [`handle_alloc_error`](std::alloc::handle_alloc_error), as those of `Vec` do. All types are
//! plain data, so they are `Send` and `Sync`.

#![deny(missing_docs)]
#![forbid(unsafe_code)]

mod audit;
mod engine;
pub mod error;
pub mod expr;
#[cfg(feature = "target-lexicon")]
mod lexicon;
mod memory;
pub mod targets;

pub use audit::{Audit, FactError, FactIter, Facts, Otherwise, audit, audit_with};
pub use error::ParseError;
pub use expr::{Decision, Expression, Predicate, TargetPredicate};
#[cfg(feature = "target-lexicon")]
pub use lexicon::target_lexicon;

/// The example of the README, which is tested as those of the documentation are.
#[cfg(doctest)]
#[doc = include_str!("../README.md")]
struct Readme;
