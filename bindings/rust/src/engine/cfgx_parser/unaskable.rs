// Made of crates/cfgx_parser/src/unaskable.rt
// by bindings/rust/engine/make, which leaves its contracts out. Nobody edits this file.

//! Whether a text is a key, or a key with a value, of which the key is at fault.

use crate::engine::cfgx_parser::classification::{LocatedText, Pending, classify};
use crate::engine::cfgx_parser::located::Span;
use crate::engine::cfgx_syntax::error::Failure;
use crate::engine::cfgx_syntax::lexer::{Lexer, Token};
use crate::engine::cfgx_syntax::memory::SmallAllocator;
use crate::engine::rattle::alloc::AllocError;
use crate::engine::rattle::prelude::Vec;

/// Whether `text`, without an outer `cfg( )`, is a key that is at fault, or such a key, `=` and a
/// value. Other texts that no condition can ask are not meant: a key whose value is at fault, or
/// what is no key, such as a text with a lexical fault.
///
/// # Errors
///
/// `AllocError`: `alloc` refused memory.
pub fn is_unaskable<A: SmallAllocator>(alloc: A, text: &str) -> Result<bool, AllocError> {
    match few_tokens(alloc, Lexer::new(alloc, text)) {
        Ok(Some(tokens)) => Ok(has_faulty_key(&tokens)),
        Ok(None) => Ok(false),
        Err(Failure::Parse(_)) => Ok(false),
        Err(Failure::Memory(error)) => Err(error),
    }
}

/// Returns the tokens that are left, or `None` if they are more than three.
///
/// # Errors
///
/// `Failure::Parse`: a lexical fault before the fourth token. `Failure::Memory`: `alloc` refused
/// memory.
fn few_tokens<'a, A: SmallAllocator>(
    alloc: A,
    lexer: Lexer<'a, A>,
) -> Result<Option<Vec<Token<'a>, A>>, Failure<A>> {
    let mut tokens = Vec::new(alloc);
    for lexed in lexer {
        let found = lexed?;
        if tokens.len() == 3 {
            return Ok(None);
        }
        tokens.push(found.token)?;
    }
    Ok(Some(tokens))
}

/// Whether the tokens are a key that is at fault, or such a key, `=` and a value.
fn has_faulty_key(tokens: &[Token<'_>]) -> bool {
    match tokens {
        [Token::Key(key)] => is_faulty_key(key, None),
        [Token::Key(key), Token::Equals, Token::Value(value)] => is_faulty_key(key, Some(value)),
        _ => false,
    }
}

/// Whether the key is at fault, and not its value.
fn is_faulty_key(key: &str, value: Option<&str>) -> bool {
    let key = text_at(key, 0);
    match value {
        None => classify(&Pending { key, value: None }).is_err(),
        Some(value) => {
            let value = Some(text_at(value, 1));
            match classify(&Pending { key, value }) {
                Ok(_) => false,
                Err(fault) => fault.span.start == 0,
            }
        }
    }
}

/// Returns a text with an empty span at `place`, which tells the key from the value in a fault.
fn text_at(text: &str, place: usize) -> LocatedText<'_> {
    let span = Span {
        start: place,
        end: place,
    };
    LocatedText { text, span }
}
