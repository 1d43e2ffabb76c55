//! The allocator of the program. For each thread, it counts blocks and growths, and refuses one.

use std::alloc::{GlobalAlloc, Layout, System};
use std::cell::Cell;
use std::ptr::null_mut;

thread_local! {
    /// The number of growths that are granted before one is refused.
    static GRANTED: Cell<usize> = const { Cell::new(usize::MAX) };
    /// The number of growths so far.
    static GROWTHS: Cell<usize> = const { Cell::new(0) };
    /// The number of blocks that were taken, less those that were given back, perhaps for another
    /// thread.
    static BLOCKS: Cell<usize> = const { Cell::new(0) };
}

struct Refusing;

#[global_allocator]
static ALLOCATOR: Refusing = Refusing;

/// Counts a growth, and returns whether it is refused. Those behind it are granted.
fn is_refused() -> bool {
    let granted = GRANTED.get();
    GRANTED.set(granted.wrapping_sub(1));
    GROWTHS.set(GROWTHS.get() + 1);
    granted == 0
}

// SAFETY: each call is passed on to the allocator of the system, or returns no block.
unsafe impl GlobalAlloc for Refusing {
    unsafe fn alloc(&self, layout: Layout) -> *mut u8 {
        if is_refused() {
            return null_mut();
        }
        // SAFETY: the caller's promises are those of this call.
        let block = unsafe { System.alloc(layout) };
        BLOCKS.set(BLOCKS.get().wrapping_add(usize::from(!block.is_null())));
        block
    }

    unsafe fn dealloc(&self, block: *mut u8, layout: Layout) {
        BLOCKS.set(BLOCKS.get().wrapping_sub(1));
        // SAFETY: the caller's promises are those of this call.
        unsafe { System.dealloc(block, layout) }
    }

    unsafe fn realloc(&self, block: *mut u8, layout: Layout, size: usize) -> *mut u8 {
        if is_refused() {
            return null_mut();
        }
        // SAFETY: the caller's promises are those of this call.
        unsafe { System.realloc(block, layout, size) }
    }
}

/// Returns how many growths a call asks for, and what it returns.
pub fn growths_of<T>(call: impl FnOnce() -> T) -> (usize, T) {
    let before = GROWTHS.get();
    let result = call();
    (GROWTHS.get() - before, result)
}

/// Returns what a call returns whose growth with this number, from 0 on, is refused. It has to ask
/// for this growth.
pub fn refusing<T>(growth: usize, call: impl FnOnce() -> T) -> T {
    GRANTED.set(growth);
    let (growths, result) = growths_of(call);
    GRANTED.set(usize::MAX);
    assert!(growths > growth, "no growth was refused");
    result
}

/// Refuses each growth of a call in turn. It has to return an error that passes the test each time,
/// and nothing that it took may be left when this is dropped. Returns how many growths it asks for.
pub fn refuse_each<T, E>(call: impl Fn() -> Result<T, E>, is_memory: impl Fn(&E) -> bool) -> usize {
    let (growths, result) = growths_of(&call);
    assert!(result.is_ok(), "the call fails without a refusal");
    drop(result);
    for growth in 0..growths {
        let blocks = BLOCKS.get();
        match refusing(growth, &call) {
            Ok(_) => panic!("growth {growth} of {growths} was refused, and there is no error"),
            Err(error) => assert!(is_memory(&error), "growth {growth} has another error"),
        }
        assert_eq!(
            BLOCKS.get(),
            blocks,
            "growth {growth} of {growths} left blocks behind"
        );
    }
    growths
}
