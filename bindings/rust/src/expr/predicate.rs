//! What a condition asks.

use crate::engine::cfgx_fields::text_key::TextKey;
use crate::engine::cfgx_parser::asked::{Asked, AskedTarget};
use crate::engine::cfgx_parser::located::LocatedPredicate;
use crate::targets::{Abi, Arch, Endian, Env, Family, HasAtomic, Os, Panic, TargetInfo, Vendor};
use std::borrow::Cow;

/// A predicate on the target that is compiled for.
///
/// ```
/// use cfgx::expr::TargetPredicate;
/// use cfgx::targets::{Os, get_builtin_target_by_triple};
///
/// let target = get_builtin_target_by_triple("aarch64-apple-darwin").unwrap();
/// assert!(TargetPredicate::Os(Os::macos).matches(target));
/// assert!(!TargetPredicate::Os(Os::linux).matches(target));
/// ```
#[derive(Clone, Debug, PartialEq, Eq, Hash)]
pub enum TargetPredicate {
    /// `target_abi`
    Abi(Abi),
    /// `target_arch`
    Arch(Arch),
    /// `target_endian`
    Endian(Endian),
    /// `target_env`
    Env(Env),
    /// `target_family`, and the bare keys `unix` and `windows`
    Family(Family),
    /// `target_has_atomic`
    HasAtomic(HasAtomic),
    /// `target_os`
    Os(Os),
    /// `panic`
    Panic(Panic),
    /// `target_pointer_width`, in bits
    PointerWidth(u8),
    /// `target_vendor`
    Vendor(Vendor),
}

impl TargetPredicate {
    /// Returns the predicate that asks for this value of a key.
    #[inline(always)]
    fn of(key: TextKey, value: Cow<'static, str>) -> Self {
        match key {
            TextKey::Abi => TargetPredicate::Abi(Abi(value)),
            TextKey::Arch => TargetPredicate::Arch(Arch(value)),
            TextKey::Env => TargetPredicate::Env(Env(value)),
            TextKey::Family => TargetPredicate::Family(Family(value)),
            TextKey::Os => TargetPredicate::Os(Os(value)),
            TextKey::Panic => TargetPredicate::Panic(Panic(value)),
            TextKey::Vendor => TargetPredicate::Vendor(Vendor(value)),
        }
    }

    /// Returns whether the predicate is true of `target`.
    ///
    /// ```
    /// use cfgx::expr::TargetPredicate;
    /// use cfgx::targets::get_builtin_target_by_triple;
    ///
    /// let target = get_builtin_target_by_triple("aarch64-apple-ios").unwrap();
    /// assert!(TargetPredicate::PointerWidth(64).matches(target));
    /// ```
    #[must_use]
    pub fn matches<T>(&self, target: &T) -> bool
    where
        T: TargetMatcher,
    {
        target.matches(self)
    }
}

/// A target of which predicates are asked. A caller's own type may be one.
///
/// ```
/// use cfgx::expr::{TargetMatcher, TargetPredicate};
/// use cfgx::targets::Family;
///
/// /// Some target of the family `unix`.
/// struct SomeUnix;
///
/// impl TargetMatcher for SomeUnix {
///     fn matches(&self, predicate: &TargetPredicate) -> bool {
///         *predicate == TargetPredicate::Family(Family::unix)
///     }
/// }
///
/// assert!(TargetPredicate::Family(Family::unix).matches(&SomeUnix));
/// ```
pub trait TargetMatcher {
    /// Returns whether the predicate `tp` is true of this target.
    fn matches(&self, tp: &TargetPredicate) -> bool;
}

/// A missing field is read as the empty text for the ABI and the environment, as `none` for the
/// operating system, and as `unknown` for the vendor.
impl TargetMatcher for TargetInfo {
    #[inline]
    fn matches(&self, tp: &TargetPredicate) -> bool {
        match tp {
            TargetPredicate::Abi(abi) => text_of(&self.abi, "") == abi.as_str(),
            TargetPredicate::Arch(arch) => self.arch == *arch,
            TargetPredicate::Endian(endian) => self.endian == *endian,
            TargetPredicate::Env(env) => text_of(&self.env, "") == env.as_str(),
            TargetPredicate::Family(family) => self.families.contains(family),
            TargetPredicate::HasAtomic(width) => self.has_atomics.contains(*width),
            TargetPredicate::Os(os) => text_of(&self.os, "none") == os.as_str(),
            TargetPredicate::Panic(panic) => self.panic == *panic,
            TargetPredicate::PointerWidth(bits) => self.pointer_width == *bits,
            TargetPredicate::Vendor(vendor) => text_of(&self.vendor, "unknown") == vendor.as_str(),
        }
    }
}

/// Returns the text of `field`, or `missing` if the target has none.
fn text_of<'a>(field: &'a Option<impl AsRef<str>>, missing: &'a str) -> &'a str {
    field.as_ref().map_or(missing, AsRef::as_ref)
}

/// A predicate of a condition. Its texts are those of the expression.
///
/// ```
/// use cfgx::{Expression, Predicate};
///
/// let expression = Expression::parse("all(feature = \"x\", loom)").unwrap();
/// let asked: Vec<Predicate<'_>> = expression.predicates().collect();
/// assert_eq!(asked, [Predicate::Feature("x"), Predicate::Flag("loom")]);
/// ```
#[derive(Clone, Debug, PartialEq, Eq, Hash)]
pub enum Predicate<'a> {
    /// A predicate on the target
    Target(TargetPredicate),
    /// `test`
    Test,
    /// `debug_assertions`
    DebugAssertions,
    /// `proc_macro`
    ProcMacro,
    /// `feature`, with the name of the feature, which may be empty
    Feature(&'a str),
    /// `target_feature`, with the name of the feature
    TargetFeature(&'a str),
    /// A bare key without a meaning of its own, such as `loom`
    Flag(&'a str),
    /// A key without a meaning of its own, with a value
    KeyValue {
        /// The key
        key: &'a str,
        /// The value, without its quotes; it may be empty
        val: &'a str,
    },
}

/// The predicate that asks for a named value, and the text of this value.
pub(crate) struct Named {
    pub(crate) predicate: Predicate<'static>,
    pub(crate) text: &'static str,
}

/// Returns what is known of the value of a key that has these bytes, if it is a named one.
#[inline(always)]
fn named(key: TextKey, value: &[u8]) -> Option<&'static Named> {
    match key {
        TextKey::Abi => Abi::named(value),
        TextKey::Arch => Arch::named(value),
        TextKey::Env => Env::named(value),
        TextKey::Family => Family::named(value),
        TextKey::Os => Os::named(value),
        TextKey::Panic => Panic::named(value),
        TextKey::Vendor => Vendor::named(value),
    }
}

impl<'a> Predicate<'a> {
    /// Returns the predicate that stands at `located` in `text`. Its text is copied if it is the
    /// value of a target, and no named one.
    #[inline(always)]
    pub(super) fn of(located: &LocatedPredicate, text: &'a str) -> Self {
        match located.asked {
            Asked::Target(AskedTarget::Text(key)) => {
                let value = located.value;
                let value = match named(key, &text.as_bytes()[value.start..value.end]) {
                    Some(known) => Cow::Borrowed(known.text),
                    None => Cow::Owned(value.cut(text).to_string()),
                };
                Predicate::Target(TargetPredicate::of(key, value))
            }
            _ => Predicate::unnamed(located, text),
        }
    }

    /// Returns what `ask` answers to the predicate that stands at `located` in `text`. A predicate
    /// that asks for a named value is not made, since it is there.
    #[inline(always)]
    pub(super) fn ask<T>(
        located: &LocatedPredicate,
        text: &str,
        mut ask: impl FnMut(&Predicate<'_>) -> T,
    ) -> T {
        let known = match located.asked {
            Asked::Target(AskedTarget::Text(key)) => {
                let value = located.value;
                named(key, &text.as_bytes()[value.start..value.end])
            }
            _ => None,
        };
        let made;
        ask(match known {
            Some(known) => &known.predicate,
            None => {
                made = Predicate::unnamed(located, text);
                &made
            }
        })
    }

    /// Returns the predicate that stands at `located` in `text`, and asks for no named value.
    #[inline(always)]
    fn unnamed(located: &LocatedPredicate, text: &'a str) -> Self {
        let LocatedPredicate { asked, key, value } = *located;
        match asked {
            Asked::Target(asked) => Predicate::Target(match asked {
                AskedTarget::Text(key) => {
                    TargetPredicate::of(key, Cow::Owned(value.cut(text).to_string()))
                }
                AskedTarget::Endian(endian) => TargetPredicate::Endian(endian),
                AskedTarget::HasAtomic(width) => TargetPredicate::HasAtomic(HasAtomic::of(width)),
                AskedTarget::PointerWidth(bits) => TargetPredicate::PointerWidth(bits),
            }),
            Asked::Test => Predicate::Test,
            Asked::DebugAssertions => Predicate::DebugAssertions,
            Asked::ProcMacro => Predicate::ProcMacro,
            Asked::Feature => Predicate::Feature(value.cut(text)),
            Asked::TargetFeature => Predicate::TargetFeature(value.cut(text)),
            Asked::Flag => Predicate::Flag(key.cut(text)),
            Asked::KeyValue => Predicate::KeyValue {
                key: key.cut(text),
                val: value.cut(text),
            },
        }
    }
}
