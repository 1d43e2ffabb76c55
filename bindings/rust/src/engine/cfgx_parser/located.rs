// Made of crates/cfgx_parser/src/located.rt
// by bindings/rust/engine/make, which leaves its contracts out. Nobody edits this file.

//! Predicates where they stand in their text.

use crate::engine::cfgx_parser::asked::{Asked, AskedTarget};
use std::ops::Range;

/// A range of the bytes of a text. Unlike a `Range`, it is `Copy`.
#[derive(Clone, Copy, Debug)]
pub struct Span {
    /// The position of the first byte
    pub start: usize,
    /// The position after the last byte
    pub end: usize,
}

impl Span {
    /// Returns the bytes of `text` at this span.
    #[inline(always)]
    pub fn cut(self, text: &str) -> &str {
        &text[self.start..self.end]
    }
}

impl From<Range<usize>> for Span {
    fn from(range: Range<usize>) -> Span {
        let Range { start, end } = range;
        Span { start, end }
    }
}

/// A predicate where it stands in a condition. Spans are ranges of the bytes of the stripped text.
#[derive(Clone, Copy, Debug)]
pub struct LocatedPredicate {
    /// What it asks
    pub asked: Asked,
    /// The span of the key
    pub key: Span,
    /// The span of the value without its quotes, or that of the key if there is no value
    pub value: Span,
}

impl LocatedPredicate {
    /// Returns the span of the whole predicate: from its key past the closing quote of its value,
    /// or to the end of a key without a value.
    #[inline(always)]
    pub fn span(&self) -> Span {
        let end = if self.value.start == self.key.start {
            self.key.end
        } else {
            // Never wraps: the text goes on behind the value.
            self.value.end.wrapping_add(1)
        };
        Span {
            start: self.key.start,
            end,
        }
    }

    /// Returns the span of the key of a `Flag` or a `KeyValue`, and `None` for every other
    /// predicate, since `asked` says its key.
    #[inline(always)]
    pub fn key_span(&self) -> Option<Span> {
        match self.asked {
            Asked::Flag | Asked::KeyValue => Some(self.key),
            _ => None,
        }
    }

    /// Returns the span of the value without its quotes, or of `unix` or `windows`. Returns `None`
    /// if there is no value, or if `asked` says it.
    #[inline(always)]
    pub fn value_span(&self) -> Option<Span> {
        match self.asked {
            Asked::Target(AskedTarget::Text(_))
            | Asked::Feature
            | Asked::TargetFeature
            | Asked::KeyValue => Some(self.value),
            _ => None,
        }
    }
}
