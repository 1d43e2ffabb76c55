// Made of crates/cfgx_targets/src/builtins.rt
// by bindings/rust/engine/make, which leaves its contracts out. Nobody edits this file.

//! The named lists, the built-in targets, and a fixed version.

use crate::engine::cfgx_fields::atomic::HasAtomic;
use crate::engine::cfgx_fields::endian::Endian;
use crate::engine::cfgx_fields::{Abi, Arch, Env, Family, Os, Panic, Triple, Vendor};
use crate::engine::cfgx_targets::info::TargetInfo;
use crate::engine::cfgx_targets::list::SortedList;
use crate::engine::cfgx_targets::table::TargetTable;
use crate::engine::rattle::alloc::{AllocError, Allocator};
use crate::engine::rattle::prelude::Vec;

impl<'a, A: Allocator> SortedList<'a, Family<'a, A>, A> {
    /// Returns the list of `unix`, in memory of `alloc`.
    ///
    /// Returns an error if `alloc` refuses it.
    pub fn unix(alloc: A) -> Result<Self, AllocError> {
        SortedList::of_one(alloc, Family::unix())
    }

    /// Returns the list of `unix` and `wasm`, in memory of `alloc`.
    ///
    /// Returns an error if `alloc` refuses it.
    pub fn unix_wasm(alloc: A) -> Result<Self, AllocError> {
        let mut families = Vec::new(alloc);
        families.push(Family::unix())?;
        families.push(Family::wasm())?;
        Ok(SortedList::from_sorted(families))
    }

    /// Returns the list of `wasm`, in memory of `alloc`.
    ///
    /// Returns an error if `alloc` refuses it.
    pub fn wasm(alloc: A) -> Result<Self, AllocError> {
        SortedList::of_one(alloc, Family::wasm())
    }

    /// Returns the list of `windows`, in memory of `alloc`.
    ///
    /// Returns an error if `alloc` refuses it.
    pub fn windows(alloc: A) -> Result<Self, AllocError> {
        SortedList::of_one(alloc, Family::windows())
    }

    // Returns the list of `family`, in memory of `alloc`.
    fn of_one(alloc: A, family: Family<'a, A>) -> Result<Self, AllocError> {
        let mut families = Vec::new(alloc);
        families.push(family)?;
        Ok(SortedList::from_sorted(families))
    }
}

impl<'a, A: Allocator> SortedList<'a, HasAtomic, A> {
    /// Returns the list of 8, 16, 32, 64 and 128 bits and the width of a pointer, in memory of
    /// `alloc`.
    ///
    /// Returns an error if `alloc` refuses it.
    pub fn atomic_8_16_32_64_128_ptr(alloc: A) -> Result<Self, AllocError> {
        let up_to_128 = [
            HasAtomic::IntegerSize(8),
            HasAtomic::IntegerSize(16),
            HasAtomic::IntegerSize(32),
            HasAtomic::IntegerSize(64),
            HasAtomic::IntegerSize(128),
            HasAtomic::Pointer,
        ];
        let widths = Vec::from_slice(alloc, &up_to_128)?;
        Ok(SortedList::from_sorted(widths))
    }

    /// Returns the list of 8, 16, 32 and 64 bits and the width of a pointer, in memory of `alloc`.
    ///
    /// Returns an error if `alloc` refuses it.
    pub fn atomic_8_16_32_64_ptr(alloc: A) -> Result<Self, AllocError> {
        let up_to_64 = [
            HasAtomic::IntegerSize(8),
            HasAtomic::IntegerSize(16),
            HasAtomic::IntegerSize(32),
            HasAtomic::IntegerSize(64),
            HasAtomic::Pointer,
        ];
        let widths = Vec::from_slice(alloc, &up_to_64)?;
        Ok(SortedList::from_sorted(widths))
    }

    /// Returns the list of 8, 16 and 32 bits and the width of a pointer, in memory of `alloc`.
    ///
    /// Returns an error if `alloc` refuses it.
    pub fn atomic_8_16_32_ptr(alloc: A) -> Result<Self, AllocError> {
        let up_to_32 = [
            HasAtomic::IntegerSize(8),
            HasAtomic::IntegerSize(16),
            HasAtomic::IntegerSize(32),
            HasAtomic::Pointer,
        ];
        let widths = Vec::from_slice(alloc, &up_to_32)?;
        Ok(SortedList::from_sorted(widths))
    }
}

/// Returns `1.99.0`, a fixed text. The built-in targets and the named values need not be those of
/// that compiler.
pub const fn rustc_version() -> &'static str {
    "1.99.0"
}

impl<'a, A: Allocator + Copy> TargetTable<'a, A> {
    /// Returns the table of the built-in targets, in memory of `alloc`.
    ///
    /// Returns an error if `alloc` refuses it.
    pub fn builtins(alloc: A) -> Result<Self, AllocError> {
        let rows = rows(alloc)?;
        Ok(TargetTable::from_increasing(rows))
    }
}

// What tells a built-in target from the others. All are targets of Apple.
#[derive(Clone, Copy)]
struct Apple {
    triple: &'static str,
    os: &'static str,
    // Both its ABI and its environment.
    variant: Option<&'static str>,
}

// The built-in targets, in the order of their triples.
const DARWIN: Apple = Apple {
    triple: "aarch64-apple-darwin",
    os: "macos",
    variant: None,
};

const IOS: Apple = Apple {
    triple: "aarch64-apple-ios",
    os: "ios",
    variant: None,
};

const MACABI: Apple = Apple {
    triple: "aarch64-apple-ios-macabi",
    os: "ios",
    variant: Some("macabi"),
};

const SIM: Apple = Apple {
    triple: "aarch64-apple-ios-sim",
    os: "ios",
    variant: Some("sim"),
};

const TVOS: Apple = Apple {
    triple: "aarch64-apple-tvos",
    os: "tvos",
    variant: None,
};

/// Returns the row of the built-in target with `triple`, in memory of `alloc`, or `None` if no
/// built-in target has it. Makes no other row.
///
/// Returns an error if `alloc` refuses it.
pub fn builtin<'a, A: Allocator + Copy>(
    alloc: A,
    triple: &str,
) -> Result<Option<TargetInfo<'a, A>>, AllocError> {
    let apple = match triple {
        _ if DARWIN.triple == triple => DARWIN,
        _ if IOS.triple == triple => IOS,
        _ if MACABI.triple == triple => MACABI,
        _ if SIM.triple == triple => SIM,
        _ if TVOS.triple == triple => TVOS,
        _ => return Ok(None),
    };
    Ok(Some(row_of(alloc, apple)?))
}

// Returns the rows of the built-in targets.
fn rows<'a, A: Allocator + Copy>(alloc: A) -> Result<Vec<TargetInfo<'a, A>, A>, AllocError> {
    let mut rows = Vec::with_capacity(alloc, 5)?;
    push_rows(alloc, &mut rows)?;
    Ok(rows)
}

// Pushes the rows of the built-in targets onto `rows`, which is empty.
fn push_rows<'a, A: Allocator + Copy>(
    alloc: A,
    rows: &mut Vec<TargetInfo<'a, A>, A>,
) -> Result<(), AllocError> {
    for apple in [DARWIN, IOS, MACABI, SIM, TVOS] {
        rows.push(row_of(alloc, apple)?)?;
    }
    Ok(())
}

// Returns the row of a built-in target.
fn row_of<'a, A: Allocator + Copy>(
    alloc: A,
    apple: Apple,
) -> Result<TargetInfo<'a, A>, AllocError> {
    let (abi, env) = match apple.variant {
        Some(name) => (Some(Abi::new_const(name)), Some(Env::new_const(name))),
        None => (None, None),
    };
    Ok(TargetInfo {
        triple: Triple::new_const(apple.triple),
        os: Some(Os::new_const(apple.os)),
        abi,
        arch: Arch::aarch64(),
        env,
        vendor: Some(Vendor::apple()),
        families: SortedList::unix(alloc)?,
        pointer_width: 64,
        endian: Endian::little,
        has_atomics: SortedList::atomic_8_16_32_64_128_ptr(alloc)?,
        panic: Panic::unwind(),
    })
}
