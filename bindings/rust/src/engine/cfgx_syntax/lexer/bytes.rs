// Made of crates/cfgx_syntax/src/lexer/bytes.rt
// by bindings/rust/engine/make, which leaves its contracts out. Nobody edits this file.

//! Classes of bytes, and runs of bytes.

use Class::*;

/// What a byte means to the lexer.
#[derive(Clone, Copy)]
pub(super) enum Class {
    /// An ASCII letter or `_`, which starts a word.
    Letter,
    /// An ASCII digit, which continues a word.
    Digit,
    /// `=`.
    Equals,
    /// `(`.
    OpenParen,
    /// `)`.
    CloseParen,
    /// `,`.
    Comma,
    /// `"`.
    Quote,
    /// ASCII white space.
    Blank,
    /// Any other byte.
    Other,
}

impl Class {
    /// Returns whether a white space character may start with a byte of this class.
    pub(super) fn may_be_white(self) -> bool {
        matches!(self, Class::Blank | Class::Other)
    }
}

/// Returns the class of `byte`. This is called for most bytes of a text, so it reads a table.
fn class_of(byte: u8) -> Class {
    CLASSES[usize::from(byte)]
}

/// Returns the class of the first byte of `text`, or `None` if `text` is empty.
pub(super) fn first_class(text: &str) -> Option<Class> {
    match text.as_bytes().first() {
        Some(first) => Some(class_of(*first)),
        None => None,
    }
}

/// A run: bytes side by side that all pass one test.
#[derive(Clone, Copy)]
pub(super) enum Run {
    /// ASCII white space.
    Blanks,
    /// The bytes of a word: ASCII letters, ASCII digits and `_`.
    Word,
    /// The bytes of a value: any byte but `"`.
    Value,
}

impl Run {
    /// Returns whether `byte` may stand in the run.
    fn allows(self, byte: u8) -> bool {
        match self {
            Run::Blanks => matches!(class_of(byte), Class::Blank),
            Run::Word => matches!(class_of(byte), Class::Letter | Class::Digit),
            Run::Value => byte != b'"',
        }
    }

    /// Returns the length of the run that `bytes` starts with, and tests one byte a turn.
    fn count(self, bytes: &[u8]) -> usize {
        bytes.iter().take_while(|byte| self.allows(**byte)).count()
    }

    /// Returns the length of the run that `bytes` starts with. It tests four bytes a turn, which
    /// takes two thirds of the instructions of `count`.
    #[inline(always)]
    pub(super) fn len(self, bytes: &[u8]) -> usize {
        let mut len = 0;
        while bytes.len() - len >= 4 {
            if !self.allows(bytes[len]) {
                return len;
            }
            if !self.allows(bytes[len + 1]) {
                return len + 1;
            }
            if !self.allows(bytes[len + 2]) {
                return len + 2;
            }
            if !self.allows(bytes[len + 3]) {
                return len + 3;
            }
            len += 4;
        }
        len + self.count(&bytes[len..])
    }
}

/// Returns the index of the first quote. Most values are short, and for these a test of each byte
/// takes fewer instructions than the preparation of `find`.
#[inline(never)]
pub(super) fn quote_in(text: &str) -> Option<usize> {
    let bytes = text.as_bytes();
    let prefix = &bytes[..bytes.len().min(SHORT_VALUE)];
    let len = Run::Value.len(prefix);
    if len < prefix.len() {
        return Some(len);
    }
    text.find('"')
}

/// The number of bytes that `quote_in` tests before it calls `find`.
const SHORT_VALUE: usize = 16;

/// The class of each byte.
const CLASSES: &[Class] = &[
    Other, Other, Other, Other, Other, Other, Other, Other, Other, Blank, Blank, Blank, Blank,
    Blank, Other, Other, Other, Other, Other, Other, Other, Other, Other, Other, Other, Other,
    Other, Other, Other, Other, Other, Other, Blank, Other, Quote, Other, Other, Other, Other,
    Other, OpenParen, CloseParen, Other, Other, Comma, Other, Other, Other, Digit, Digit, Digit,
    Digit, Digit, Digit, Digit, Digit, Digit, Digit, Other, Other, Other, Equals, Other, Other,
    Other, Letter, Letter, Letter, Letter, Letter, Letter, Letter, Letter, Letter, Letter, Letter,
    Letter, Letter, Letter, Letter, Letter, Letter, Letter, Letter, Letter, Letter, Letter, Letter,
    Letter, Letter, Letter, Other, Other, Other, Other, Letter, Other, Letter, Letter, Letter,
    Letter, Letter, Letter, Letter, Letter, Letter, Letter, Letter, Letter, Letter, Letter, Letter,
    Letter, Letter, Letter, Letter, Letter, Letter, Letter, Letter, Letter, Letter, Letter, Other,
    Other, Other, Other, Other, Other, Other, Other, Other, Other, Other, Other, Other, Other,
    Other, Other, Other, Other, Other, Other, Other, Other, Other, Other, Other, Other, Other,
    Other, Other, Other, Other, Other, Other, Other, Other, Other, Other, Other, Other, Other,
    Other, Other, Other, Other, Other, Other, Other, Other, Other, Other, Other, Other, Other,
    Other, Other, Other, Other, Other, Other, Other, Other, Other, Other, Other, Other, Other,
    Other, Other, Other, Other, Other, Other, Other, Other, Other, Other, Other, Other, Other,
    Other, Other, Other, Other, Other, Other, Other, Other, Other, Other, Other, Other, Other,
    Other, Other, Other, Other, Other, Other, Other, Other, Other, Other, Other, Other, Other,
    Other, Other, Other, Other, Other, Other, Other, Other, Other, Other, Other, Other, Other,
    Other, Other, Other, Other, Other, Other, Other, Other, Other, Other, Other, Other, Other,
    Other, Other,
];
