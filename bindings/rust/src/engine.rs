//! The engine: the parser, the values and the audits of conditions.
//!
//! Its files are made of proved sources in the language Rattle: `bindings/rust/engine/make` of the
//! repository leaves their contracts out. `rattle` is written by hand. It has what the library of
//! Rattle has and that of Rust has not.

// The sources have more calls, and more names for them, than this crate asks for.
#![allow(dead_code, unused_imports)]
// The byte orders are spelled as the values of `target_endian` are.
#![allow(non_camel_case_types)]
// The form is that of the sources. Rattle lacks some shorter ones, and proofs follow others.
#![allow(clippy::complexity, clippy::must_use_candidate, clippy::style)]
// Lists are in the order of slices by both traits.
#![allow(clippy::non_canonical_partial_ord_impl)]

pub(crate) mod cfg_expr;
pub(crate) mod cfgx_engine;
pub(crate) mod cfgx_fields;
pub(crate) mod cfgx_parser;
pub(crate) mod cfgx_syntax;
pub(crate) mod cfgx_targets;
pub(crate) mod rattle;
