//! The crate [`cfgx`] under the name and the version of `cfg-expr`, for a `[patch.crates-io]` by
//! which all packages of a graph use it. `docs/RUST.md` of its repository has the lines.
//!
//! The features `targets` and `target-lexicon` do what they do there: they pass on the crate
//! `target_lexicon`, whose triples are targets then.

pub use cfgx::*;
