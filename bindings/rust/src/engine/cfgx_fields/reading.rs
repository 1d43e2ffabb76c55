// Made of crates/cfgx_fields/src/reading.rt
// by bindings/rust/engine/make, which leaves its contracts out. Nobody edits this file.

//! Readers of the values of target keys. They allocate nothing.

use crate::engine::cfgx_fields::atomic::HasAtomic;
use crate::engine::cfgx_fields::endian::Endian;

/// Returns the number that `text` writes, at most 255: at most one `+`, and then ASCII digits.
/// Returns `None` for any other text.
pub fn read_u8(text: &str) -> Option<u8> {
    text.parse::<u8>().ok()
}

/// Returns the number that `text` writes, at most 65535: at most one `+`, and then ASCII digits.
/// Returns `None` for any other text.
pub fn read_u16(text: &str) -> Option<u16> {
    text.parse::<u16>().ok()
}

/// Returns the byte order that `text` names, if it names one.
pub fn read_endian(text: &str) -> Option<Endian> {
    match text {
        "big" => Some(Endian::big),
        "little" => Some(Endian::little),
        _ => None,
    }
}

/// Returns the width of atomics that `text` names: a number that `read_u16` reads, or `ptr`.
/// Returns `None` for any other text.
pub fn read_has_atomic(text: &str) -> Option<HasAtomic> {
    match read_u16(text) {
        Some(bits) => Some(HasAtomic::IntegerSize(bits)),
        None if text == "ptr" => Some(HasAtomic::Pointer),
        None => None,
    }
}
