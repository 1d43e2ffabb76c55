// Made of crates/cfgx_parser/src/asked.rt
// by bindings/rust/engine/make, which leaves its contracts out. Nobody edits this file.

//! What predicates ask, without their texts.

use crate::engine::cfgx_fields::atomic::HasAtomic;
use crate::engine::cfgx_fields::endian::Endian;
use crate::engine::cfgx_fields::text_key::TextKey;

/// What a predicate asks of a target, without its text.
#[derive(Clone, Copy, Debug, PartialEq, Eq)]
pub enum AskedTarget {
    /// A key whose value is any text. For `unix` and `windows` it is `Family`
    Text(TextKey),
    /// `target_endian`
    Endian(Endian),
    /// `target_has_atomic`
    HasAtomic(HasAtomic),
    /// `target_pointer_width`, in bits
    PointerWidth(u8),
}

/// What a predicate asks, without its texts.
#[derive(Clone, Copy, Debug, PartialEq, Eq)]
pub enum Asked {
    /// A predicate on the target
    Target(AskedTarget),
    /// `test`
    Test,
    /// `debug_assertions`
    DebugAssertions,
    /// `proc_macro`
    ProcMacro,
    /// `feature`
    Feature,
    /// `target_feature`
    TargetFeature,
    /// A bare key without a meaning of its own
    Flag,
    /// A key without a meaning of its own, with a value
    KeyValue,
}

/// Returns the number of the kind of predicates on a target with the key `key`.
fn text_kind(key: TextKey) -> u32 {
    match key {
        TextKey::Abi => 8,
        TextKey::Arch => 9,
        TextKey::Env => 11,
        TextKey::Family => 12,
        TextKey::Os => 14,
        TextKey::Panic => 15,
        TextKey::Vendor => 17,
    }
}

impl AskedTarget {
    /// Returns the number of the kind of predicates.
    fn kind(self) -> u32 {
        match self {
            AskedTarget::Text(key) => text_kind(key),
            AskedTarget::Endian(_) => 10,
            AskedTarget::HasAtomic(_) => 13,
            AskedTarget::PointerWidth(_) => 16,
        }
    }
}

impl Asked {
    /// Returns the number of the kind of predicates, by which callers in C know it. It says which
    /// variant this is, and which key a predicate on the target has.
    #[inline(always)]
    pub fn kind(self) -> u32 {
        match self {
            Asked::Target(target) => target.kind(),
            Asked::Flag => 1,
            Asked::KeyValue => 2,
            Asked::Test => 3,
            Asked::DebugAssertions => 4,
            Asked::ProcMacro => 5,
            Asked::Feature => 6,
            Asked::TargetFeature => 7,
        }
    }

    /// Returns the number of bits of a pointer or of an atomic, or 0 for the byte order `big` or 1
    /// for `little`. Every other predicate has no number, nor has an atomic of the width `ptr`.
    pub fn number(self) -> Option<u32> {
        match self {
            Asked::Target(AskedTarget::Endian(Endian::big)) => Some(0),
            Asked::Target(AskedTarget::Endian(Endian::little)) => Some(1),
            Asked::Target(AskedTarget::HasAtomic(HasAtomic::IntegerSize(bits))) => {
                Some(u32::from(bits))
            }
            Asked::Target(AskedTarget::PointerWidth(bits)) => Some(u32::from(bits)),
            _ => None,
        }
    }
}
