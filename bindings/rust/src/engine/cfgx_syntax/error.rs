// Made of crates/cfgx_syntax/src/error.rt
// by bindings/rust/engine/make, which leaves its contracts out. Nobody edits this file.

//! What is wrong with a cfg text, where, and how it prints.

pub mod terms;

use crate::engine::rattle::alloc::{AllocError, AllocFailed, Allocator, Global};
use crate::engine::rattle::prelude::{FormatterExt, String};
use std::fmt;
use std::ops::Range;

// 64 spaces.
const SPACES: &str = "                                                                ";

// 64 carets.
const CARETS: &str = "^^^^^^^^^^^^^^^^^^^^^^^^^^^^^^^^^^^^^^^^^^^^^^^^^^^^^^^^^^^^^^^^";

/// The kind of a fault. Equal reasons have the same variant, number and texts.
#[derive(Clone, Copy, Debug)]
pub enum Reason {
    /// A `not` with no member or several. The field is the number of its members.
    InvalidNot(usize),
    /// Characters that no expression has. No text has this fault.
    InvalidCharacters,
    /// A parenthesis is never closed.
    UnclosedParens,
    /// A parenthesis is closed that was never opened.
    UnopenedParens,
    /// A quote is never closed.
    UnclosedQuotes,
    /// A quote is closed that was never opened. No text has this fault.
    UnopenedQuotes,
    /// The text has no predicate, literal or function.
    Empty,
    /// A term that may not stand there. The field has the terms that may, and is empty if none
    /// may.
    Unexpected(&'static [&'static str]),
    /// A number that does not parse or is out of range, or a `target_endian` that is neither `big`
    /// nor `little`.
    InvalidInteger,
    /// More than one predicate, literal or function stands outside of every function.
    MultipleRootPredicates,
    /// The width of an atomic is neither an integer nor `ptr`.
    InvalidHasAtomic,
    /// A built-in name that is not known. No text has this fault.
    UnknownBuiltin,
}

/// A fault, which is a reason with a span, and the text that it is in. Equal errors have the same
/// text, span and reason.
#[derive(Debug)]
pub struct ParseError<A: Allocator = Global> {
    /// The text, without an outer `cfg( )`.
    pub original: String<A>,
    /// The bytes of `original` that are at fault.
    pub span: Range<usize>,
    /// What is wrong with those bytes.
    pub reason: Reason,
}

/// The error of a call that reads a text.
#[derive(Debug)]
pub enum Failure<A: Allocator = Global> {
    /// The text has a fault.
    Parse(ParseError<A>),
    /// The call ran out of memory. The text may have a fault or none.
    Memory(AllocError),
}

impl PartialEq for Reason {
    fn eq(&self, other: &Self) -> bool {
        self.number() == other.number()
            && self.members() == other.members()
            && are_same_texts(self.terms(), other.terms())
    }
}

// Returns whether both lists have the same texts in the same order.
fn are_same_texts(texts: &[&str], others: &[&str]) -> bool {
    texts == others
}

impl Eq for Reason {}

impl<A: Allocator> PartialEq for ParseError<A> {
    fn eq(&self, other: &Self) -> bool {
        self.original == other.original && self.span == other.span && self.reason == other.reason
    }
}

impl<A: Allocator> Eq for ParseError<A> {}

impl<A: Allocator> PartialEq for Failure<A> {
    fn eq(&self, other: &Self) -> bool {
        match (self, other) {
            (Failure::Parse(one), Failure::Parse(other)) => *one == *other,
            (Failure::Memory(_), Failure::Memory(_)) => true,
            _ => false,
        }
    }
}

impl<A: Allocator> Eq for Failure<A> {}

impl<A: Allocator> Failure<A> {
    /// Returns the error for `reason` at the bytes `span` of `original`, with a copy of `original`
    /// in `alloc`, or `Memory` if `alloc` refuses the copy.
    pub fn of(alloc: A, original: &str, span: Range<usize>, reason: Reason) -> Failure<A> {
        match String::from_str(alloc, original) {
            Ok(original) => Failure::Parse(ParseError {
                original,
                span,
                reason,
            }),
            Err(error) => Failure::Memory(error),
        }
    }
}

impl<A: Allocator> From<ParseError<A>> for Failure<A> {
    fn from(error: ParseError<A>) -> Failure<A> {
        Failure::Parse(error)
    }
}

impl<A: Allocator> From<AllocError> for Failure<A> {
    fn from(error: AllocError) -> Failure<A> {
        Failure::Memory(error)
    }
}

impl<T, A: Allocator> From<AllocFailed<T>> for Failure<A> {
    fn from(_error: AllocFailed<T>) -> Failure<A> {
        Failure::Memory(AllocError)
    }
}

impl Reason {
    /// Returns the number of the reason: that of its variant, from 1 on.
    pub fn number(self) -> u32 {
        match self {
            Reason::InvalidNot(_) => 1,
            Reason::InvalidCharacters => 2,
            Reason::UnclosedParens => 3,
            Reason::UnopenedParens => 4,
            Reason::UnclosedQuotes => 5,
            Reason::UnopenedQuotes => 6,
            Reason::Empty => 7,
            Reason::Unexpected(_) => 8,
            Reason::InvalidInteger => 9,
            Reason::MultipleRootPredicates => 10,
            Reason::InvalidHasAtomic => 11,
            Reason::UnknownBuiltin => 12,
        }
    }

    /// Returns the number of members of an `InvalidNot`, and 0 for every other reason.
    pub fn members(self) -> usize {
        match self {
            Reason::InvalidNot(members) => members,
            _ => 0,
        }
    }

    // Returns the terms of an `Unexpected`, and none for every other reason.
    fn terms(self) -> &'static [&'static str] {
        match self {
            Reason::Unexpected(terms) => terms,
            _ => &[],
        }
    }

    /// Returns the number of the list of terms of an `Unexpected`, from 1 on in the order of
    /// RULES, and 0 for every other list and reason.
    pub fn terms_number(self) -> u32 {
        match self {
            Reason::Unexpected(terms) => terms::number_of(terms),
            _ => 0,
        }
    }

    /// Returns the reason in a few words, without its number and its terms.
    pub fn description(self) -> &'static str {
        match self {
            Reason::InvalidNot(_) => "not() takes 1 predicate",
            Reason::InvalidCharacters => "invalid character(s)",
            Reason::UnclosedParens => "unclosed parens",
            Reason::UnopenedParens => "unopened parens",
            Reason::UnclosedQuotes => "unclosed quotes",
            Reason::UnopenedQuotes => "unopened quotes",
            Reason::Empty => "empty expression",
            Reason::Unexpected(_) => "unexpected term",
            Reason::InvalidInteger => "invalid integer",
            Reason::MultipleRootPredicates => "multiple root predicates",
            Reason::InvalidHasAtomic => "expected integer or \"ptr\"",
            Reason::UnknownBuiltin => "unknown built-in",
        }
    }
}

impl fmt::Display for Reason {
    fn fmt(&self, f: &mut fmt::Formatter) -> fmt::Result {
        match self {
            Reason::InvalidNot(found) => write!(f, "not() takes 1 predicate, found {found}"),
            Reason::Unexpected(terms) => write_unexpected(f, terms),
            reason => f.write_str(reason.description()),
        }
    }
}

// Writes which of `terms` were expected, or that none was.
fn write_unexpected(f: &mut fmt::Formatter, terms: &[&str]) -> fmt::Result {
    let Some((first, others)) = terms.split_first() else {
        return f.write_str("the term was not expected here");
    };
    f.write_str(opening_words(others))?;
    write_quoted(f, first)?;
    write_more_terms(f, others)?;
    f.write_str(" here")
}

// Returns the words before the first expected term. `others` are the terms after it.
fn opening_words(others: &[&str]) -> &'static str {
    if others.is_empty() {
        "expected a "
    } else {
        "expected one of "
    }
}

// Writes `term` between back quotes.
fn write_quoted(f: &mut fmt::Formatter, term: &str) -> fmt::Result {
    f.write_str("`")?;
    f.write_str(term)?;
    f.write_str("`")
}

// Writes each of `terms` after a comma and a space, between back quotes.
fn write_more_terms(f: &mut fmt::Formatter, terms: &[&str]) -> fmt::Result {
    for term in terms {
        f.write_str(", ")?;
        write_quoted(f, term)?;
    }
    Ok(())
}

impl<A: Allocator> ParseError<A> {
    /// Returns the reason in a few words, without its number and its terms.
    pub fn description(&self) -> &'static str {
        self.reason.description()
    }
}

impl<A: Allocator> fmt::Display for ParseError<A> {
    fn fmt(&self, f: &mut fmt::Formatter) -> fmt::Result {
        write_fault(f, self.original.as_str(), &self.span, self.reason)
    }
}

/// Writes the fault `reason` at the bytes `span` of `original`, as a `ParseError` is printed: the
/// text, a line feed, the marks below the span, and the reason.
pub fn write_fault(
    f: &mut fmt::Formatter,
    original: &str,
    span: &Range<usize>,
    reason: Reason,
) -> fmt::Result {
    f.write_str(original)?;
    f.write_str("\n")?;
    write_spaces(f, span.start)?;
    write_marks(f, span.end.saturating_sub(span.start), reason)?;
    f.write_str(" ")?;
    f.write(reason)
}

// Writes the marks below a span of `width` bytes.
fn write_marks(f: &mut fmt::Formatter, width: usize, reason: Reason) -> fmt::Result {
    match reason {
        Reason::UnclosedParens | Reason::UnclosedQuotes => f.write_str("-"),
        Reason::UnopenedParens | Reason::UnopenedQuotes => f.write_str("^"),
        _ => write_carets(f, width),
    }
}

// Writes `text` `count` times.
fn write_repeated(f: &mut fmt::Formatter, text: &str, count: usize) -> fmt::Result {
    for _time in 0..count {
        f.write_str(text)?;
    }
    Ok(())
}

// Writes `mark` `count` times. `block` is 64 marks, so that a long span takes few calls.
fn write_in_blocks(f: &mut fmt::Formatter, mark: &str, block: &str, count: usize) -> fmt::Result {
    write_repeated(f, block, count / 64)?;
    write_repeated(f, mark, count % 64)
}

// Writes `count` spaces: one for each byte before a span.
fn write_spaces(f: &mut fmt::Formatter, count: usize) -> fmt::Result {
    write_in_blocks(f, " ", SPACES, count)
}

// Writes `count` carets: one for each byte of a span.
fn write_carets(f: &mut fmt::Formatter, count: usize) -> fmt::Result {
    write_in_blocks(f, "^", CARETS, count)
}
