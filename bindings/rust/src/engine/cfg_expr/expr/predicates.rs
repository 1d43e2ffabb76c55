// Made of crates/cfg_expr/src/expr/predicates.rt
// by bindings/rust/engine/make, which leaves its contracts out. Nobody edits this file.

//! The predicates of a condition, and the iterator over them.

use super::{AskedTexts, LocatedPredicates};
use crate::engine::cfgx_fields::atomic::HasAtomic;
use crate::engine::cfgx_fields::endian::Endian;
use crate::engine::cfgx_fields::text_key::TextKey;
use crate::engine::cfgx_fields::{Abi, Arch, Env, Family, Os, Panic, Vendor};
use crate::engine::cfgx_parser::asked::{Asked, AskedTarget};
use crate::engine::cfgx_parser::located::LocatedPredicate;
use crate::engine::rattle::alloc::{Allocator, Global};

/// A predicate on the target for which a crate is compiled.
#[derive(Debug)]
pub enum TargetPredicate<'a, A: Allocator = Global> {
    /// `target_abi`
    Abi(Abi<'a, A>),
    /// `target_arch`
    Arch(Arch<'a, A>),
    /// `target_endian`
    Endian(Endian),
    /// `target_env`
    Env(Env<'a, A>),
    /// `target_family`, and the bare keys `unix` and `windows`
    Family(Family<'a, A>),
    /// `target_has_atomic`
    HasAtomic(HasAtomic),
    /// `target_os`
    Os(Os<'a, A>),
    /// `panic`
    Panic(Panic<'a, A>),
    /// `target_pointer_width`, in bits
    PointerWidth(u8),
    /// `target_vendor`
    Vendor(Vendor<'a, A>),
}

/// A predicate of a condition. The texts of one that `Predicates` yields are those of the
/// condition.
#[derive(Debug)]
pub enum Predicate<'a, A: Allocator = Global> {
    /// A predicate on the target
    Target(TargetPredicate<'a, A>),
    /// `test`
    Test,
    /// `debug_assertions`
    DebugAssertions,
    /// `proc_macro`
    ProcMacro,
    /// `feature`, with the name of the feature, which may be empty
    Feature(&'a str),
    /// `target_feature`, with the name of the feature
    TargetFeature(&'a str),
    /// A bare key without a meaning of its own, such as `loom`
    Flag(&'a str),
    /// A key without a meaning of its own, with a value
    KeyValue {
        /// The key
        key: &'a str,
        /// The value, without its quotes; it may be empty
        val: &'a str,
    },
}

/// Two predicates on targets are equal if they ask the same key for the same value, whether the
/// text is borrowed or owned.
impl<A: Allocator> PartialEq for TargetPredicate<'_, A> {
    fn eq(&self, other: &Self) -> bool {
        let (one, text) = self.parts();
        let (other, other_text) = other.parts();
        one == other && text == other_text
    }
}

impl<A: Allocator> Eq for TargetPredicate<'_, A> {}

/// Two predicates are equal if they have the same kind, key and value, wherever their texts lie.
impl<A: Allocator> PartialEq for Predicate<'_, A> {
    fn eq(&self, other: &Self) -> bool {
        self.asked_texts() == other.asked_texts()
    }
}

impl<A: Allocator> Eq for Predicate<'_, A> {}

impl<'a> TargetPredicate<'a> {
    /// Returns the predicate that asks `asked`. Its text, if its key has one, is `text`.
    pub(super) fn of(asked: AskedTarget, text: &'a str) -> Self {
        use AskedTarget::Text;
        match asked {
            Text(TextKey::Abi) => TargetPredicate::Abi(Abi::new_const(text)),
            Text(TextKey::Arch) => TargetPredicate::Arch(Arch::new_const(text)),
            Text(TextKey::Env) => TargetPredicate::Env(Env::new_const(text)),
            Text(TextKey::Family) => TargetPredicate::Family(Family::new_const(text)),
            Text(TextKey::Os) => TargetPredicate::Os(Os::new_const(text)),
            Text(TextKey::Panic) => TargetPredicate::Panic(Panic::new_const(text)),
            Text(TextKey::Vendor) => TargetPredicate::Vendor(Vendor::new_const(text)),
            AskedTarget::Endian(endian) => TargetPredicate::Endian(endian),
            AskedTarget::HasAtomic(width) => TargetPredicate::HasAtomic(width),
            AskedTarget::PointerWidth(bits) => TargetPredicate::PointerWidth(bits),
        }
    }
}

impl<A: Allocator> TargetPredicate<'_, A> {
    /// Returns what is asked, and the text that is asked for, which is empty for a byte order, a
    /// number of bits and the `ptr` of `target_has_atomic`.
    pub(super) fn parts(&self) -> (AskedTarget, &str) {
        use AskedTarget::Text;
        match self {
            TargetPredicate::Abi(abi) => (Text(TextKey::Abi), abi.as_str()),
            TargetPredicate::Arch(arch) => (Text(TextKey::Arch), arch.as_str()),
            TargetPredicate::Endian(endian) => (AskedTarget::Endian(*endian), ""),
            TargetPredicate::Env(env) => (Text(TextKey::Env), env.as_str()),
            TargetPredicate::Family(family) => (Text(TextKey::Family), family.as_str()),
            TargetPredicate::HasAtomic(width) => (AskedTarget::HasAtomic(*width), ""),
            TargetPredicate::Os(os) => (Text(TextKey::Os), os.as_str()),
            TargetPredicate::Panic(panic) => (Text(TextKey::Panic), panic.as_str()),
            TargetPredicate::PointerWidth(bits) => (AskedTarget::PointerWidth(*bits), ""),
            TargetPredicate::Vendor(vendor) => (Text(TextKey::Vendor), vendor.as_str()),
        }
    }
}

impl<'a> Predicate<'a> {
    /// Returns the predicate at `located`, with its texts cut out of `text`, in which it stands.
    #[inline(always)]
    pub(super) fn of(located: &LocatedPredicate, text: &'a str) -> Self {
        let LocatedPredicate { asked, key, value } = *located;
        match asked {
            Asked::Target(target) => {
                Predicate::Target(TargetPredicate::of(target, value.cut(text)))
            }
            Asked::Test => Predicate::Test,
            Asked::DebugAssertions => Predicate::DebugAssertions,
            Asked::ProcMacro => Predicate::ProcMacro,
            Asked::Feature => Predicate::Feature(value.cut(text)),
            Asked::TargetFeature => Predicate::TargetFeature(value.cut(text)),
            Asked::Flag => Predicate::Flag(key.cut(text)),
            Asked::KeyValue => Predicate::KeyValue {
                key: key.cut(text),
                val: value.cut(text),
            },
        }
    }
}

impl<A: Allocator> Predicate<'_, A> {
    /// Returns what the predicate asks, with its texts.
    pub fn asked_texts(&self) -> AskedTexts<'_> {
        let (asked, key, value) = match self {
            Predicate::Target(target) => {
                let (asked, text) = target.parts();
                (Asked::Target(asked), "", text)
            }
            Predicate::Test => (Asked::Test, "", ""),
            Predicate::DebugAssertions => (Asked::DebugAssertions, "", ""),
            Predicate::ProcMacro => (Asked::ProcMacro, "", ""),
            Predicate::Feature(name) => (Asked::Feature, "", *name),
            Predicate::TargetFeature(name) => (Asked::TargetFeature, "", *name),
            Predicate::Flag(key) => (Asked::Flag, *key, ""),
            Predicate::KeyValue { key, val } => (Asked::KeyValue, *key, *val),
        };
        AskedTexts {
            kind: asked.kind(),
            number: asked.number(),
            key: key.as_bytes(),
            value: value.as_bytes(),
        }
    }
}

/// The predicates of a condition, in the order in which they are asked, with their texts.
pub struct Predicates<'a> {
    text: &'a str,
    /// Where those that are left stand in the text
    located: LocatedPredicates<'a>,
}

impl<'a> Predicates<'a> {
    /// Returns the iterator over the predicates at `located`, which stand in `text`.
    pub(super) fn new(text: &'a str, located: LocatedPredicates<'a>) -> Self {
        Predicates { text, located }
    }

    /// Returns the number of predicates that are left.
    pub fn left(&self) -> usize {
        self.located.left()
    }
}

impl<'a> Iterator for Predicates<'a> {
    type Item = Predicate<'a>;

    #[inline(always)]
    fn next(&mut self) -> Option<Predicate<'a>> {
        let located = self.located.next()?;
        Some(Predicate::of(&located, self.text))
    }
}
