// Made of crates/cfgx_parser/src/classification.rt
// by bindings/rust/engine/make, which leaves its contracts out. Nobody edits this file.

//! What a key and its value say, or what is wrong with them and where.

use crate::engine::cfgx_fields::reading::{read_endian, read_has_atomic, read_u8};
use crate::engine::cfgx_fields::text_key::TextKey;
use crate::engine::cfgx_parser::asked::{Asked, AskedTarget};
use crate::engine::cfgx_parser::located::{LocatedPredicate, Span};
use crate::engine::cfgx_parser::nodes::ExprNode;
use crate::engine::cfgx_syntax::error::{Reason, terms};

/// A part of the text, and where it stands.
#[derive(Clone, Copy)]
pub(crate) struct LocatedText<'a> {
    pub(crate) text: &'a str,
    pub(crate) span: Span,
}

/// A predicate or literal that has not ended: its key, and its value without the quotes, if that
/// is read.
#[derive(Clone, Copy)]
pub(crate) struct Pending<'a> {
    pub(crate) key: LocatedText<'a>,
    pub(crate) value: Option<LocatedText<'a>>,
}

/// A fault of the text: a reason, and the bytes at fault.
#[derive(Clone, Copy)]
pub(crate) struct Fault {
    pub(crate) reason: Reason,
    pub(crate) span: Span,
}

impl LocatedText<'_> {
    /// Returns the fault of this part of the text.
    fn fault(self, reason: Reason) -> Fault {
        Fault {
            reason,
            span: self.span,
        }
    }
}

/// Returns the leaf of a key that takes no value, or the fault of a value that is there.
fn bare(leaf: ExprNode, value: Option<LocatedText<'_>>) -> Result<ExprNode, Fault> {
    match value {
        None => Ok(leaf),
        Some(value) => Err(value.fault(Reason::Unexpected(terms::NOTHING))),
    }
}

/// Returns the node of a predicate. Without a value, `value` is the key.
fn predicate(asked: Asked, key: LocatedText<'_>, value: LocatedText<'_>) -> ExprNode {
    ExprNode::Predicate(LocatedPredicate {
        asked,
        key: key.span,
        value: value.span,
    })
}

/// Returns the predicate of a key that begins with `target_`, or the fault of the key or the value.
/// `name` is the rest of the key. A byte order that cannot be read has the reason of a number, as
/// in `cfg-expr`.
fn classify_target(
    name: &str,
    key: LocatedText<'_>,
    value: LocatedText<'_>,
) -> Result<ExprNode, Fault> {
    use Asked::{Target, TargetFeature};
    use AskedTarget::*;
    let text = value.text;
    match name {
        "abi" => Ok(predicate(Target(Text(TextKey::Abi)), key, value)),
        "arch" => Ok(predicate(Target(Text(TextKey::Arch)), key, value)),
        "os" => Ok(predicate(Target(Text(TextKey::Os)), key, value)),
        "family" => Ok(predicate(Target(Text(TextKey::Family)), key, value)),
        "env" => Ok(predicate(Target(Text(TextKey::Env)), key, value)),
        "vendor" => Ok(predicate(Target(Text(TextKey::Vendor)), key, value)),
        "feature" if text.is_empty() => Err(value.fault(Reason::Unexpected(terms::FEATURE))),
        "feature" => Ok(predicate(TargetFeature, key, value)),
        "endian" => match read_endian(text) {
            Some(endian) => Ok(predicate(Target(Endian(endian)), key, value)),
            None => Err(value.fault(Reason::InvalidInteger)),
        },
        "has_atomic" => match read_has_atomic(text) {
            Some(atomic) => Ok(predicate(Target(HasAtomic(atomic)), key, value)),
            None => Err(value.fault(Reason::InvalidHasAtomic)),
        },
        "pointer_width" => match read_u8(text) {
            Some(width) => Ok(predicate(Target(PointerWidth(width)), key, value)),
            None => Err(value.fault(Reason::InvalidInteger)),
        },
        _ => Err(key.fault(Reason::Unexpected(terms::TARGET_KEYS))),
    }
}

/// Returns the predicate of a key that `classify` does not name, or the fault of the key or the
/// value.
fn classify_other(key: LocatedText<'_>, value: Option<LocatedText<'_>>) -> Result<ExprNode, Fault> {
    match (key.text.strip_prefix("target_"), value) {
        (Some(name), Some(value)) => classify_target(name, key, value),
        (Some(_), None) => Err(key.fault(Reason::Unexpected(terms::TARGET_VALUE))),
        (None, Some(value)) => Ok(predicate(Asked::KeyValue, key, value)),
        (None, None) => Ok(predicate(Asked::Flag, key, key)),
    }
}

/// Returns the predicate or the literal of a key and its value, or the fault of either.
pub(crate) fn classify(pending: &Pending<'_>) -> Result<ExprNode, Fault> {
    use Asked::*;
    use AskedTarget::Text;
    use ExprNode::Literal;
    let Pending { key, value } = *pending;
    match key.text {
        "true" => bare(Literal(true), value),
        "false" => bare(Literal(false), value),
        "unix" => bare(predicate(Target(Text(TextKey::Family)), key, key), value),
        "windows" => bare(predicate(Target(Text(TextKey::Family)), key, key), value),
        "test" => bare(predicate(Test, key, key), value),
        "debug_assertions" => bare(predicate(DebugAssertions, key, key), value),
        "proc_macro" => bare(predicate(ProcMacro, key, key), value),
        "feature" => match value {
            Some(value) => Ok(predicate(Feature, key, value)),
            None => Err(key.fault(Reason::Unexpected(terms::FEATURE_NAME))),
        },
        "panic" => match value {
            Some(value) => Ok(predicate(Target(Text(TextKey::Panic)), key, value)),
            None => Err(key.fault(Reason::Unexpected(terms::PANIC_STRATEGY))),
        },
        _ => classify_other(key, value),
    }
}
