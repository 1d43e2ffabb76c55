// Made of crates/cfgx_fields/src/endian.rt
// by bindings/rust/engine/make, which leaves its contracts out. Nobody edits this file.

//! Byte orders.

use crate::engine::cfgx_fields::reading::read_endian;
use crate::engine::cfgx_syntax::error::Reason;
use std::str::FromStr;

mod order;

/// The order in which a target stores the bytes of a number. The variants are spelled like the
/// values of `target_endian`, and `big` is below `little`.
#[derive(Clone, Copy, Debug, PartialEq, Eq, Hash)]
pub enum Endian {
    /// The highest byte comes first.
    big,
    /// The lowest byte comes first.
    little,
}

/// Reads `big` or `little`, letter for letter.
///
/// # Errors
///
/// `Reason::Unexpected` with both names: the text is any other.
impl FromStr for Endian {
    type Err = Reason;

    fn from_str(text: &str) -> Result<Self, Reason> {
        read_endian(text).ok_or(Reason::Unexpected(&["big", "little"]))
    }
}
