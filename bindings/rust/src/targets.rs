//! Targets, as conditions see them.

#[macro_use]
mod named;
mod builtins;
mod facts;
mod fields;
mod lists;
mod printed;
mod rustc;

use crate::engine::cfgx_fields::atomic;
use crate::engine::cfgx_fields::reading::read_has_atomic;
use crate::error::HasAtomicParseError;
pub use facts::builtin_facts;
pub use fields::{Abi, Arch, Env, Family, Os, Panic, Triple, Vendor};
pub use lists::{Families, HasAtomics};
pub use printed::RustcCfgError;
pub use rustc::{Rustc, RustcError};
use std::fmt;
use std::str::FromStr;

/// The values that predicates test of a target. `None` means that the target has no such value.
///
/// ```
/// use cfgx::targets::{
///     Arch, Endian, Env, Families, HasAtomics, Os, Panic, TargetInfo, Triple, Vendor,
/// };
///
/// let target = TargetInfo {
///     triple: Triple::new_const("x86_64-unknown-linux-gnu"),
///     os: Some(Os::linux),
///     abi: None,
///     arch: Arch::x86_64,
///     env: Some(Env::gnu),
///     vendor: Some(Vendor::unknown),
///     families: Families::unix,
///     pointer_width: 64,
///     endian: Endian::little,
///     has_atomics: HasAtomics::atomic_8_16_32_64_ptr,
///     panic: Panic::unwind,
/// };
/// assert_eq!(target.os.unwrap().as_str(), "linux");
/// ```
#[derive(Clone, Debug, PartialEq, Eq, PartialOrd, Ord, Hash)]
pub struct TargetInfo {
    /// The name of the target.
    pub triple: Triple,
    /// The operating system, `target_os`.
    pub os: Option<Os>,
    /// The ABI, `target_abi`, if it distinguishes targets.
    pub abi: Option<Abi>,
    /// The architecture, `target_arch`.
    pub arch: Arch,
    /// The ABI or libc, `target_env`, if it distinguishes targets.
    pub env: Option<Env>,
    /// The vendor, `target_vendor`.
    pub vendor: Option<Vendor>,
    /// The families, `target_family`.
    pub families: Families,
    /// The number of bits of a pointer, `target_pointer_width`.
    pub pointer_width: u8,
    /// The byte order, `target_endian`.
    pub endian: Endian,
    /// The widths of atomics, `target_has_atomic`.
    pub has_atomics: HasAtomics,
    /// The panic strategy, `panic`.
    pub panic: Panic,
}

/// The order in which a target stores the bytes of a number.
///
/// ```
/// use cfgx::error::Reason;
/// use cfgx::targets::Endian;
///
/// assert_eq!("big".parse(), Ok(Endian::big));
/// assert_eq!("Big".parse::<Endian>(), Err(Reason::Unexpected(&["big", "little"])));
/// ```
pub use crate::engine::cfgx_fields::endian::Endian;

/// A width of atomics. Numbers of bits are in order, and below the width of a pointer.
///
/// ```
/// use cfgx::targets::HasAtomic;
///
/// assert_eq!("+64".parse(), Ok(HasAtomic::IntegerSize(64)));
/// assert_eq!(HasAtomic::Pointer.to_string(), "ptr");
/// assert!("word".parse::<HasAtomic>().is_err());
/// ```
#[derive(Clone, Copy, Debug, PartialEq, Eq, PartialOrd, Ord, Hash)]
#[non_exhaustive]
pub enum HasAtomic {
    /// A number of bits.
    IntegerSize(u16),
    /// The width of a pointer.
    Pointer,
}

impl HasAtomic {
    /// Returns a width that the engine read.
    #[inline]
    pub(crate) fn of(width: atomic::HasAtomic) -> Self {
        match width {
            atomic::HasAtomic::IntegerSize(bits) => HasAtomic::IntegerSize(bits),
            atomic::HasAtomic::Pointer => HasAtomic::Pointer,
        }
    }
}

impl FromStr for HasAtomic {
    type Err = HasAtomicParseError;

    /// Reads a number of bits, at most 65535, or `ptr`.
    fn from_str(text: &str) -> Result<Self, HasAtomicParseError> {
        let width = read_has_atomic(text);
        width
            .map(HasAtomic::of)
            .ok_or_else(|| HasAtomicParseError::new(text))
    }
}

impl fmt::Display for HasAtomic {
    fn fmt(&self, f: &mut fmt::Formatter<'_>) -> fmt::Result {
        match self {
            HasAtomic::IntegerSize(bits) => write!(f, "{bits}"),
            HasAtomic::Pointer => f.write_str("ptr"),
        }
    }
}

/// The built-in targets, in the order of their triples: those of `cfg-expr` 0.20.10, with the same
/// fields.
///
/// ```
/// use cfgx::targets::{ALL_BUILTINS, Arch};
///
/// let wasm = ALL_BUILTINS.iter().filter(|target| target.arch == Arch::wasm32);
/// assert!(wasm.count() > 1);
/// ```
pub const ALL_BUILTINS: &[TargetInfo] = builtins::TARGETS;

/// Returns the built-in target with this triple.
///
/// ```
/// use cfgx::targets::{Os, get_builtin_target_by_triple};
///
/// let target = get_builtin_target_by_triple("x86_64-unknown-linux-gnu").unwrap();
/// assert_eq!(target.os, Some(Os::linux));
/// assert!(get_builtin_target_by_triple("x86_64-linux-gnu").is_none());
/// ```
#[must_use]
pub fn get_builtin_target_by_triple(triple: &str) -> Option<&'static TargetInfo> {
    place_in(ALL_BUILTINS, triple).map(|place| &ALL_BUILTINS[place])
}

/// Returns the place of the target with this triple in `targets`, which are in the order of their
/// triples.
fn place_in(targets: &[TargetInfo], triple: &str) -> Option<usize> {
    let found = targets.binary_search_by(|target| target.triple.as_str().cmp(triple));
    found.ok()
}

/// Returns the version of the compiler whose targets are built in, as `cfg-expr` 0.20.10 names it.
///
/// ```
/// assert!(cfgx::targets::rustc_version().starts_with("1."));
/// ```
#[must_use]
pub const fn rustc_version() -> &'static str {
    builtins::RUSTC_VERSION
}
