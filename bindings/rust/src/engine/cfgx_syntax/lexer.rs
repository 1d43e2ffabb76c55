// Made of crates/cfgx_syntax/src/lexer.rt
// by bindings/rust/engine/make, which leaves its contracts out. Nobody edits this file.

//! The tokens of a `cfg()` text, with the bytes that spell them.

mod bytes;

use crate::engine::cfgx_syntax::error::{Failure, Reason, terms};
use crate::engine::cfgx_syntax::stripping::{Stripped, strip};
use crate::engine::rattle::alloc::{Allocator, Global};
use bytes::{Class, Run, first_class, quote_in};
use std::fmt;
use std::ops::Range;

/// One lexical unit of a condition.
#[derive(Clone, Copy, Debug)]
pub enum Token<'a> {
    /// A word that names no function.
    Key(&'a str),
    /// The text between two quotes.
    Value(&'a str),
    /// `=`.
    Equals,
    /// `all`.
    All,
    /// `any`.
    Any,
    /// `not`.
    Not,
    /// `(`.
    OpenParen,
    /// `)`.
    CloseParen,
    /// `,`.
    Comma,
}

/// Two tokens are equal if they are of one kind and have equal texts, wherever these lie.
impl PartialEq for Token<'_> {
    fn eq(&self, other: &Self) -> bool {
        match (self, other) {
            (Token::Key(word), Token::Key(other)) => word == other,
            (Token::Value(inside), Token::Value(other)) => inside == other,
            (Token::Equals, Token::Equals)
            | (Token::All, Token::All)
            | (Token::Any, Token::Any)
            | (Token::Not, Token::Not)
            | (Token::OpenParen, Token::OpenParen)
            | (Token::CloseParen, Token::CloseParen)
            | (Token::Comma, Token::Comma) => true,
            _ => false,
        }
    }
}

impl Eq for Token<'_> {}

/// Prints what `Debug` prints.
impl fmt::Display for Token<'_> {
    fn fmt(&self, f: &mut fmt::Formatter) -> fmt::Result {
        fmt::Debug::fmt(self, f)
    }
}

/// A token with its span in the stripped text.
#[derive(Clone, Debug)]
pub struct LexerToken<'a> {
    /// The token.
    pub token: Token<'a>,
    /// The bytes of the stripped text that spell it.
    pub span: Range<usize>,
}

/// Returns `text` without its leading white space, which is ASCII in most texts.
fn after_blanks(text: &str) -> &str {
    let rest = &text[Run::Blanks.len(text.as_bytes())..];
    match rest.as_bytes().first() {
        // Only a character beyond ASCII can still be white space.
        Some(first) if !first.is_ascii() => rest.trim_start(),
        _ => rest,
    }
}

/// Returns `text` without its leading white space, and the class of the first byte that is left, or
/// `None` if none is left.
// As calls, this and `first_token` would add a third to the instructions of parsing a short text.
#[inline(always)]
fn trimmed(text: &str) -> (&str, Option<Class>) {
    let Some(class) = first_class(text) else {
        return (text, None);
    };
    // In most calls the class shows that there is no white space.
    if !class.may_be_white() {
        return (text, Some(class));
    }
    let rest = after_blanks(text);
    (rest, first_class(rest))
}

/// Returns the length of the word that `text` starts with.
fn word_len(text: &str) -> usize {
    Run::Word.len(&text.as_bytes()[1..]) + 1
}

/// Returns the token that `word` spells.
fn word_token(word: &str) -> Token<'_> {
    match word {
        "all" => Token::All,
        "any" => Token::Any,
        "not" => Token::Not,
        key => Token::Key(key),
    }
}

/// Returns the value that `text` starts with, and the number of bytes that spell it.
///
/// `text` starts with a quote. If no other quote follows, the error has the reason and the number
/// of bytes at fault, which is `text.len()`.
fn value_token(text: &str) -> Result<(Token<'_>, usize), (Reason, usize)> {
    let rest = &text[1..];
    match quote_in(rest) {
        Some(len) => Ok((Token::Value(&rest[..len]), len + 2)),
        None => Err((Reason::UnclosedQuotes, text.len())),
    }
}

/// Returns the token that `text` starts with, and the number of bytes that spell it. `class` is the
/// class of the first byte.
///
/// If no token starts there, the error has the reason and the number of bytes at fault: all of them
/// after a quote that is never closed, else one, even of a longer character.
#[inline(always)]
fn first_token(text: &str, class: Class) -> Result<(Token<'_>, usize), (Reason, usize)> {
    match class {
        Class::Letter => {
            let len = word_len(text);
            Ok((word_token(&text[..len]), len))
        }
        Class::Equals => Ok((Token::Equals, 1)),
        Class::OpenParen => Ok((Token::OpenParen, 1)),
        Class::CloseParen => Ok((Token::CloseParen, 1)),
        Class::Comma => Ok((Token::Comma, 1)),
        Class::Quote => value_token(text),
        Class::Digit | Class::Blank | Class::Other => Err((Reason::Unexpected(terms::MEMBER), 1)),
    }
}

/// An iterator over the tokens of a text, from left to right.
///
/// After an error, and after `None`, every further item is `None`.
pub struct Lexer<'a, A: Allocator = Global> {
    original: &'a str,
    /// The text after the last token.
    inner: &'a str,
    /// The allocator for the copy of the text that an error has; `None` after an error.
    alloc: Option<A>,
}

impl<'a, A: Allocator> Lexer<'a, A> {
    /// Returns a lexer of `text` without its outer `cfg( )`. It allocates nothing.
    pub fn new(alloc: A, text: &'a str) -> Self {
        Lexer::of_stripped(alloc, strip(text))
    }

    /// Returns a lexer of a text that is stripped already. It allocates nothing.
    pub fn of_stripped(alloc: A, stripped: Stripped<'a>) -> Self {
        Lexer {
            original: stripped.text,
            inner: stripped.text,
            alloc: Some(alloc),
        }
    }

    /// Returns the stripped text, whose bytes spans count.
    pub fn original(&self) -> &'a str {
        self.original
    }

    /// Returns the number of bytes after the last token. It falls with each item, and is 0 after
    /// `None` and after an error.
    pub fn items_left_bound(&self) -> usize {
        self.inner.len()
    }
}

/// Yields the tokens in order. The error is the fault at which they end, or `Memory` if there is no
/// memory for the copy of the text.
impl<'a, A: Allocator> Iterator for Lexer<'a, A> {
    type Item = Result<LexerToken<'a>, Failure<A>>;

    // As a call, it would add a quarter to the instructions of parsing a short text.
    #[inline(always)]
    fn next(&mut self) -> Option<Self::Item> {
        let (rest, class) = trimmed(self.inner);
        self.inner = rest;
        let class = class?;
        let start = self.original.len() - rest.len();
        match first_token(rest, class) {
            Ok((token, len)) => {
                self.inner = &rest[len..];
                Some(Ok(LexerToken {
                    token,
                    span: start..start + len,
                }))
            }
            Err((reason, len)) => {
                self.inner = "";
                let Some(alloc) = self.alloc.take() else {
                    unreachable!()
                };
                let span = start..start + len;
                Some(Err(Failure::of(alloc, self.original, span, reason)))
            }
        }
    }
}
