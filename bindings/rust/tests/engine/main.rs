//! The engine inside of the crate: what stands for the library of Rattle, and calls that are
//! refused memory.
//!
//! The crate keeps the engine to itself, so it is compiled into this program. Here the allocator of
//! the program refuses growths, which the crate, without `unsafe`, cannot have.

#[path = "../../src"]
mod files {
    pub(crate) mod engine;
}

mod memory;
mod refused;
mod small_vectors;
mod texts;
mod vectors;

use files::engine;
