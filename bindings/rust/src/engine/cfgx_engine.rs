// Made of crates/cfgx_engine/src/lib.rt
// by bindings/rust/engine/make, which leaves its contracts out. Nobody edits this file.

//! The engine of the program cfgx: its commands and its streams, and the verdicts on sections.

pub mod resolve;
