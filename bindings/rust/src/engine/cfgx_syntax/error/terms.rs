// Made of crates/cfgx_syntax/src/error/terms.rt
// by bindings/rust/engine/make, which leaves its contracts out. Nobody edits this file.

//! The lists of terms of `Unexpected`.

use super::are_same_texts;

/// Where nothing may stand: at the value of a key that takes none.
pub const NOTHING: &[&str] = &[];

/// At the start, and where no token can start.
pub const MEMBER: &[&str] = &["<key>", "all", "any", "not"];

/// After `(`.
pub const AFTER_PAREN: &[&str] = &["<key>", ")", "all", "any", "not"];

/// After `,`.
pub const AFTER_COMMA: &[&str] = &[")", "<key>"];

/// After a key.
pub const AFTER_KEY: &[&str] = &["=", ",", ")"];

/// After `=`.
pub const AFTER_EQUALS: &[&str] = &["\""];

/// After a value.
pub const AFTER_VALUE: &[&str] = &[",", ")"];

/// After the name of a function, also at the end of the text.
pub const AFTER_FUNCTION: &[&str] = &["("];

/// After `)`.
pub const AFTER_CLOSING: &[&str] = &[")", ","];

/// At the end, after `=`.
pub const VALUE: &[&str] = &["\"<value>\""];

/// At `feature` without a value.
pub const FEATURE_NAME: &[&str] = &["= \"<feature_name>\""];

/// At `panic` without a value.
pub const PANIC_STRATEGY: &[&str] = &["= \"<panic_strategy>\""];

/// At a key that begins with `target_`, known or not, without a value.
pub const TARGET_VALUE: &[&str] = &["= \"<target_cfg_value>\""];

/// At the empty value of `target_feature`.
pub const FEATURE: &[&str] = &["<feature>"];

/// At a key that begins with `target_` and is not known, with a value. `target_abi` is missing, as
/// in `cfg-expr`.
pub const TARGET_KEYS: &[&str] = &[
    "target_arch",
    "target_feature",
    "target_os",
    "target_family",
    "target_env",
    "target_endian",
    "target_has_atomic",
    "target_pointer_width",
    "target_vendor",
];

/// All of them, as `docs/RULES.md` numbers them from 1 on.
const LISTS: &[&[&str]] = &[
    NOTHING,
    MEMBER,
    AFTER_PAREN,
    AFTER_COMMA,
    AFTER_KEY,
    AFTER_EQUALS,
    AFTER_VALUE,
    AFTER_FUNCTION,
    AFTER_CLOSING,
    VALUE,
    FEATURE_NAME,
    PANIC_STRATEGY,
    TARGET_VALUE,
    FEATURE,
    TARGET_KEYS,
];

/// Returns the first place of a list of terms in `lists`.
fn place_in(lists: &[&[&str]], terms: &[&str]) -> Option<usize> {
    lists.iter().position(|list| are_same_texts(terms, list))
}

/// Returns the number of a list of terms, and 0 for a list that is none of these.
pub(super) fn number_of(terms: &[&str]) -> u32 {
    match place_in(LISTS, terms) {
        Some(place) => place as u32 + 1,
        None => 0,
    }
}
