//! What becomes of a call of the engine that gets no memory.

use crate::engine::rattle::alloc::AllocError;
use std::alloc::{Layout, handle_alloc_error};

/// Returns what a call of the engine returned. If it got no memory, ends the process as calls of
/// `Vec` do. `len` is the number of bytes of the text of the call, which the message then names.
#[inline]
pub(crate) fn granted<T>(result: Result<T, AllocError>, len: usize) -> T {
    match result {
        Ok(value) => value,
        Err(_) => end(len),
    }
}

/// Ends the process, for which no memory is left. The message names this number of bytes, or 1 if
/// it is 0.
#[cold]
#[inline(never)]
pub(crate) fn end(len: usize) -> ! {
    let layout = Layout::array::<u8>(len.max(1));
    handle_alloc_error(layout.unwrap_or(Layout::new::<u8>()))
}
