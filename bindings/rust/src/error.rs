//! What is wrong with a text.

use crate::engine::cfgx_syntax::error::{self, Failure};
use crate::memory;
use std::error::Error;
use std::fmt;
use std::ops::Range;

/// What is wrong with the bytes of a span.
///
/// ```
/// use cfgx::error::Reason;
///
/// assert_eq!(Reason::Empty.to_string(), "empty expression");
/// assert_eq!(Reason::Unexpected(&["(", ")"]).to_string(), "expected one of `(`, `)` here");
/// ```
pub use crate::engine::cfgx_syntax::error::Reason;

/// The first fault of a text that is no condition.
///
/// It prints the text, and below it marks and the reason.
///
/// ```
/// use cfgx::Expression;
/// use cfgx::error::Reason;
///
/// let error = Expression::parse("cfg(not(a, b))").unwrap_err();
/// assert_eq!(error.original, "not(a, b)");
/// assert_eq!(error.span, 0..9);
/// assert_eq!(error.reason, Reason::InvalidNot(2));
/// assert_eq!(
///     error.to_string(),
///     "not(a, b)\n^^^^^^^^^ not() takes 1 predicate, found 2"
/// );
/// ```
#[derive(Clone, Debug, PartialEq, Eq)]
pub struct ParseError {
    /// The text, without an outer `cfg( )`.
    pub original: String,
    /// The bytes of `original` that are at fault.
    pub span: Range<usize>,
    /// What is wrong with those bytes.
    pub reason: Reason,
}

/// A text that names no width of atomics.
///
/// ```
/// use cfgx::targets::HasAtomic;
///
/// let error = "8x".parse::<HasAtomic>().unwrap_err();
/// assert_eq!(error.to_string(), "expected integer or \"ptr\", found 8x");
/// ```
#[derive(Clone, Debug, PartialEq, Eq)]
pub struct HasAtomicParseError {
    input: String,
}

impl HasAtomicParseError {
    /// Returns the error of the text `input`.
    pub(crate) fn new(input: &str) -> Self {
        HasAtomicParseError {
            input: input.to_string(),
        }
    }
}

impl fmt::Display for HasAtomicParseError {
    fn fmt(&self, f: &mut fmt::Formatter<'_>) -> fmt::Result {
        write!(f, "expected integer or \"ptr\", found {}", self.input)
    }
}

impl Error for HasAtomicParseError {}

impl ParseError {
    /// Returns the error of a call of the engine on a text of `len` bytes. Without memory for it,
    /// ends the process.
    pub(crate) fn new(failure: Failure, len: usize) -> Self {
        match failure {
            Failure::Parse(error) => ParseError {
                original: error.original.into_std(),
                span: error.span,
                reason: error.reason,
            },
            Failure::Memory(_) => memory::end(len),
        }
    }
}

impl fmt::Display for ParseError {
    fn fmt(&self, f: &mut fmt::Formatter<'_>) -> fmt::Result {
        error::write_fault(f, &self.original, &self.span, self.reason)
    }
}

impl Error for ParseError {
    /// Returns the reason in a few words, without its number and its terms.
    fn description(&self) -> &str {
        self.reason.description()
    }
}
