// Made of crates/cfgx_syntax/src/stripping.rt
// by bindings/rust/engine/make, which leaves its contracts out. Nobody edits this file.

//! The condition of a text with or without an outer `cfg( )`.

/// A text without its outer `cfg( )`.
#[derive(Clone, Copy, Debug)]
pub struct Stripped<'a> {
    /// What is left of the text
    pub text: &'a str,
    /// The number of bytes that were taken off in front of it
    pub offset: usize,
}

/// Returns the text between `cfg(` and `)` if `text` starts and ends with them, else `text`. Only
/// one pair is removed.
pub fn strip(text: &str) -> Stripped<'_> {
    let whole = Stripped { text, offset: 0 };
    let Some(inner) = text.strip_prefix("cfg(") else {
        return whole;
    };
    match inner.strip_suffix(")") {
        Some(kept) => Stripped {
            text: kept,
            offset: 4,
        },
        None => whole,
    }
}
