//! The tokens of a text.

use crate::engine::cfgx_syntax::lexer;
use crate::engine::rattle::alloc::Global;
use crate::error::ParseError;
use std::iter::FusedIterator;

/// A token of a text.
///
/// ```
/// use cfgx::expr::lexer::Token;
///
/// assert_eq!(Token::Key("unix").to_string(), "Key(\"unix\")");
/// ```
pub use crate::engine::cfgx_syntax::lexer::Token;

/// A token, and where it stands.
///
/// ```
/// use cfgx::expr::lexer::{Lexer, Token};
///
/// let first = Lexer::new("cfg(all())").next().unwrap()?;
/// assert_eq!((first.token, first.span), (Token::All, 0..3));
/// # Ok::<(), cfgx::ParseError>(())
/// ```
pub use crate::engine::cfgx_syntax::lexer::LexerToken;

impl PartialEq for LexerToken<'_> {
    fn eq(&self, other: &Self) -> bool {
        self.token == other.token && self.span == other.span
    }
}

impl Eq for LexerToken<'_> {}

/// An iterator over the tokens of a text, which need not be a condition.
///
/// It reads a token at each call of `next`. If somewhere no token can start, or a quote is never
/// closed, the last item is an error. The error of
/// [`Expression::parse`](super::Expression::parse) may be one before it.
///
/// ```
/// use cfgx::expr::lexer::{Lexer, LexerToken, Token};
///
/// let tokens: Result<Vec<LexerToken<'_>>, _> = Lexer::new("cfg(k = \"v\")").collect();
/// let tokens = tokens?;
/// assert_eq!(tokens[0].token, Token::Key("k"));
/// assert_eq!(tokens[2].token, Token::Value("v"));
/// assert_eq!(tokens[2].span, 4..7);
/// assert!(Lexer::new("k = 8").last().unwrap().is_err());
/// # Ok::<(), cfgx::ParseError>(())
/// ```
pub struct Lexer<'a> {
    inner: lexer::Lexer<'a>,
}

impl<'a> Lexer<'a> {
    /// Returns a lexer of `text`, which may stand in `cfg( )`.
    #[must_use]
    pub fn new(text: &'a str) -> Self {
        Lexer {
            inner: lexer::Lexer::new(Global, text),
        }
    }
}

impl<'a> Iterator for Lexer<'a> {
    type Item = Result<LexerToken<'a>, ParseError>;

    #[inline]
    fn next(&mut self) -> Option<Self::Item> {
        match self.inner.next()? {
            Ok(token) => Some(Ok(token)),
            Err(failure) => {
                let len = self.inner.original().len();
                Some(Err(ParseError::new(failure, len)))
            }
        }
    }
}

impl FusedIterator for Lexer<'_> {}
