//! Tests of the crate against recorded answers and against models. Those that build programs in
//! folders are for Unix.

mod audits;
mod child;
mod colliding;
#[cfg(unix)]
mod compiler;
mod documentation;
mod generated;
mod joining;
mod leaks;
mod lexing;
mod lines;
mod logics;
mod long;
#[cfg(unix)]
mod manifests;
mod matching;
#[cfg(unix)]
mod memory;
mod model;
mod named;
#[cfg(unix)]
mod packaged;
#[cfg(unix)]
mod patched;
mod predicates;
#[cfg(unix)]
mod programs;
#[cfg(unix)]
mod real;
mod recorded;
mod rows;
mod rustc;
mod spelling;
#[cfg(unix)]
mod surface;
mod tables;
mod targets;
mod threads;
mod trees;
