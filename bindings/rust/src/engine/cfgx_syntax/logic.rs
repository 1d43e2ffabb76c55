// Made of crates/cfgx_syntax/src/logic.rt
// by bindings/rust/engine/make, which leaves its contracts out. Nobody edits this file.

//! The values that answers to predicates can have, and how `all`, `any` and `not` combine them.

mod kleene;

pub use kleene::Kleene64;

/// Values with the operations of truth values.
///
/// Every call returns, and the result depends only on the arguments. Nothing else is required: the
/// operations need not be commutative, for example.
pub trait Logic {
    /// The value of a conjunction of nothing.
    fn top() -> Self;

    /// The value of a disjunction of nothing.
    fn bottom() -> Self;

    /// The conjunction of both.
    fn and(self, other: Self) -> Self;

    /// The disjunction of both.
    fn or(self, other: Self) -> Self;

    /// The negation.
    fn not(self) -> Self;
}

/// Truth values, joined by `&&`, `||` and `!`.
impl Logic for bool {
    fn top() -> bool {
        true
    }

    fn bottom() -> bool {
        false
    }

    fn and(self, other: bool) -> bool {
        self && other
    }

    fn or(self, other: bool) -> bool {
        self || other
    }

    fn not(self) -> bool {
        !self
    }
}

/// Answers that may be unknown, which is `None`, joined by Kleene's strong tables.
impl Logic for Option<bool> {
    fn top() -> Option<bool> {
        Some(true)
    }

    fn bottom() -> Option<bool> {
        Some(false)
    }

    fn and(self, other: Option<bool>) -> Option<bool> {
        match (self, other) {
            (Some(false), _) | (_, Some(false)) => Some(false),
            (Some(true), Some(true)) => Some(true),
            _ => None,
        }
    }

    fn or(self, other: Option<bool>) -> Option<bool> {
        match (self, other) {
            (Some(false), Some(false)) => Some(false),
            (Some(true), _) | (_, Some(true)) => Some(true),
            _ => None,
        }
    }

    fn not(self) -> Option<bool> {
        self.map(|known| !known)
    }
}
