//! Targets from what `rustc --print cfg` prints.

use super::{Abi, Arch, Endian, Env, Families, Family, HasAtomic, HasAtomics};
use super::{Os, Panic, TargetInfo, Triple, Vendor};
use crate::engine::cfgx_parser::unaskable::is_unaskable;
use crate::engine::rattle::alloc::Global;
use crate::error::ParseError;
use crate::expr::{Expression, Predicate, TargetPredicate};
use crate::memory;
use std::collections::BTreeSet;
use std::error::Error;
use std::fmt;

/// Why lines do not describe a target. Lines are counted from 1.
///
/// ```
/// use cfgx::targets::{RustcCfgError, TargetInfo};
///
/// let error = TargetInfo::from_rustc_cfg("mine", "unix\ntarget_os=\n").unwrap_err();
/// assert!(matches!(error, RustcCfgError::Faulty { line: 2, .. }));
/// let error = TargetInfo::from_rustc_cfg("mine", "unix\n").unwrap_err();
/// assert_eq!(error.to_string(), "no line has a target_arch");
/// ```
#[derive(Clone, Debug, PartialEq, Eq)]
#[non_exhaustive]
pub enum RustcCfgError {
    /// A line is no condition.
    Faulty {
        /// The number of the line.
        line: usize,
        /// What is wrong with it.
        error: ParseError,
    },
    /// A line has a second value of a key that has one value.
    Twice {
        /// The number of the line.
        line: usize,
        /// The key.
        key: &'static str,
    },
    /// No line has a value of a key that each target has.
    Missing {
        /// The key.
        key: &'static str,
    },
}

impl fmt::Display for RustcCfgError {
    fn fmt(&self, f: &mut fmt::Formatter<'_>) -> fmt::Result {
        match self {
            RustcCfgError::Faulty { line, error } => write!(f, "line {line}:\n{error}"),
            RustcCfgError::Twice { line, key } => write!(f, "line {line}: another {key}"),
            RustcCfgError::Missing { key } => write!(f, "no line has a {key}"),
        }
    }
}

impl Error for RustcCfgError {
    fn source(&self) -> Option<&(dyn Error + 'static)> {
        match self {
            RustcCfgError::Faulty { error, .. } => Some(error),
            _ => None,
        }
    }
}

/// What the lines that were read say about a target.
#[derive(Default)]
struct Values {
    abi: Option<Abi>,
    arch: Option<Arch>,
    endian: Option<Endian>,
    env: Option<Env>,
    families: BTreeSet<Family>,
    has_atomics: BTreeSet<HasAtomic>,
    os: Option<Os>,
    panic: Option<Panic>,
    pointer_width: Option<u8>,
    vendor: Option<Vendor>,
}

impl Values {
    /// Takes the value of a predicate that is true. Returns its key if there is another value.
    fn take(&mut self, predicate: TargetPredicate) -> Result<(), &'static str> {
        match predicate {
            TargetPredicate::Abi(abi) => put(&mut self.abi, abi, "target_abi"),
            TargetPredicate::Arch(arch) => put(&mut self.arch, arch, "target_arch"),
            TargetPredicate::Endian(endian) => put(&mut self.endian, endian, "target_endian"),
            TargetPredicate::Env(env) => put(&mut self.env, env, "target_env"),
            TargetPredicate::Family(family) => {
                self.families.insert(family);
                Ok(())
            }
            TargetPredicate::HasAtomic(width) => {
                self.has_atomics.insert(width);
                Ok(())
            }
            TargetPredicate::Os(os) => put(&mut self.os, os, "target_os"),
            TargetPredicate::Panic(panic) => put(&mut self.panic, panic, "panic"),
            TargetPredicate::PointerWidth(bits) => {
                put(&mut self.pointer_width, bits, "target_pointer_width")
            }
            TargetPredicate::Vendor(vendor) => put(&mut self.vendor, vendor, "target_vendor"),
        }
    }

    /// Returns the target with these values. An empty ABI, an empty environment and the operating
    /// system `none` become missing fields, which meet the same predicates.
    fn target(self, triple: &str) -> Result<TargetInfo, RustcCfgError> {
        Ok(TargetInfo {
            triple: Triple::new(triple.to_string()),
            os: self.os.filter(|os| os.as_str() != "none"),
            abi: self.abi.filter(|abi| !abi.as_str().is_empty()),
            arch: found(self.arch, "target_arch")?,
            env: self.env.filter(|env| !env.as_str().is_empty()),
            vendor: self.vendor,
            families: Families::new(self.families),
            pointer_width: found(self.pointer_width, "target_pointer_width")?,
            endian: found(self.endian, "target_endian")?,
            has_atomics: HasAtomics::new(self.has_atomics),
            panic: found(self.panic, "panic")?,
        })
    }
}

/// Puts `value` into `place`, or returns `key` if another value is there.
fn put<T: PartialEq>(
    place: &mut Option<T>,
    value: T,
    key: &'static str,
) -> Result<(), &'static str> {
    match place {
        Some(other) if *other != value => Err(key),
        _ => {
            *place = Some(value);
            Ok(())
        }
    }
}

/// Returns the value of `key`, or the error if there is none.
fn found<T>(value: Option<T>, key: &'static str) -> Result<T, RustcCfgError> {
    value.ok_or(RustcCfgError::Missing { key })
}

impl TargetInfo {
    /// Returns the target that `lines` describe, which are what `rustc --print cfg --target TRIPLE`
    /// prints.
    ///
    /// It ignores empty lines, predicates that do not test the target, and lines that no condition
    /// can ask, such as `target_thread_local`.
    ///
    /// # Errors
    ///
    /// `Faulty` for the first line that is no condition, `Twice` for the first line with a second
    /// value of a key that has one value, and `Missing` if no line has the architecture, the width
    /// of a pointer, the byte order or the panic strategy.
    ///
    /// ```
    /// use cfgx::targets::{Os, TargetInfo};
    ///
    /// let lines = "panic=\"unwind\"\n\
    ///     target_arch=\"x86_64\"\n\
    ///     target_endian=\"little\"\n\
    ///     target_os=\"linux\"\n\
    ///     target_pointer_width=\"64\"\n\
    ///     unix\n";
    /// let target = TargetInfo::from_rustc_cfg("x86_64-unknown-linux-gnu", lines)?;
    /// assert_eq!(target.os, Some(Os::linux));
    /// # Ok::<(), cfgx::targets::RustcCfgError>(())
    /// ```
    pub fn from_rustc_cfg(triple: &str, lines: &str) -> Result<TargetInfo, RustcCfgError> {
        let mut values = Values::default();
        let lines = (1..).zip(lines.lines());
        for (line, text) in lines.filter(|(_, text)| !text.is_empty()) {
            match Expression::parse(text) {
                Ok(condition) => take_each(&mut values, condition.predicates())
                    .map_err(|key| RustcCfgError::Twice { line, key })?,
                Err(_) if is_passed_over(text) => {}
                Err(error) => return Err(RustcCfgError::Faulty { line, error }),
            }
        }
        values.target(triple)
    }
}

/// Returns whether a line is one that no condition can ask.
fn is_passed_over(text: &str) -> bool {
    memory::granted(is_unaskable(Global, text), text.len())
}

/// Takes the value of each predicate on the target.
fn take_each<'a>(
    values: &mut Values,
    mut predicates: impl Iterator<Item = Predicate<'a>>,
) -> Result<(), &'static str> {
    predicates.try_for_each(|predicate| match predicate {
        Predicate::Target(target) => values.take(target),
        _ => Ok(()),
    })
}
