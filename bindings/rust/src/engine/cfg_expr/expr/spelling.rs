// Made of crates/cfg_expr/src/expr/spelling.rt
// by bindings/rust/engine/make, which leaves its contracts out. Nobody edits this file.

//! Writes predicates.

use super::{Predicate, TargetPredicate};
use crate::engine::cfgx_fields::atomic::HasAtomic;
use crate::engine::cfgx_fields::endian::Endian;
use crate::engine::cfgx_parser::asked::AskedTarget;
use crate::engine::rattle::alloc::Allocator;
use std::io::{self, ErrorKind, Write};

/// Calls `write` once. Returns the bytes that are left.
fn write_once<'a, W: Write>(writer: &mut W, bytes: &'a [u8]) -> io::Result<&'a [u8]> {
    match writer.write(bytes) {
        Ok(0) => Err(io::Error::from(ErrorKind::WriteZero)),
        Ok(taken) => Ok(&bytes[taken..]),
        Err(error) => Err(error),
    }
}

/// Writes all bytes, in as many calls as the writer needs. A call that failed is not tried again.
fn write_bytes<W: Write>(writer: &mut W, bytes: &[u8]) -> io::Result<()> {
    let mut left = bytes;
    while !left.is_empty() {
        left = write_once(writer, left)?;
    }
    Ok(())
}

/// Writes `number` in decimal.
fn write_decimal<W: Write>(writer: &mut W, number: u16) -> io::Result<()> {
    if number < 10 {
        return write_bytes(writer, &[b'0' + number as u8]);
    }
    write_decimal(writer, number / 10)?;
    write_bytes(writer, &[b'0' + (number % 10) as u8])
}

/// The value of a predicate: a text, or a number that is written in decimal.
#[derive(Clone, Copy)]
pub(crate) enum Value<'a> {
    Text(&'a str),
    Number(u16),
}

impl Value<'_> {
    /// Writes the value, without quotes.
    fn write<W: Write>(self, writer: &mut W) -> io::Result<()> {
        match self {
            Value::Text(text) => write_bytes(writer, text.as_bytes()),
            Value::Number(number) => write_decimal(writer, number),
        }
    }
}

/// Writes `value` and a quote.
#[inline(always)]
fn write_to_quote<W: Write>(writer: &mut W, value: Value<'_>) -> io::Result<()> {
    value.write(writer)?;
    write_bytes(writer, b"\"")
}

/// Writes `prefix`, `value` and a quote.
#[inline(always)]
fn write_quoted<W: Write>(writer: &mut W, prefix: &[u8], value: Value<'_>) -> io::Result<()> {
    write_bytes(writer, prefix)?;
    write_to_quote(writer, value)
}

/// Writes `key`, ` = ` and `value` in quotes.
#[inline(always)]
fn write_value<W: Write>(writer: &mut W, key: &str, value: Value<'_>) -> io::Result<()> {
    write_bytes(writer, key.as_bytes())?;
    write_quoted(writer, b" = \"", value)
}

/// Returns the name of a byte order.
fn endian_name(endian: Endian) -> &'static str {
    match endian {
        Endian::big => "big",
        Endian::little => "little",
    }
}

/// Returns the value of a predicate on the width of atomics.
fn atomic_value(atomic: HasAtomic) -> Value<'static> {
    match atomic {
        HasAtomic::IntegerSize(bits) => Value::Number(bits),
        HasAtomic::Pointer => Value::Text("ptr"),
    }
}

/// Returns the key and the value of a predicate on the target.
fn target_parts<'a, A: Allocator>(target: &'a TargetPredicate<'_, A>) -> (&'static str, Value<'a>) {
    match target.parts() {
        (AskedTarget::Text(key), text) => (key.name(), Value::Text(text)),
        (AskedTarget::Endian(endian), _) => ("target_endian", Value::Text(endian_name(endian))),
        (AskedTarget::HasAtomic(width), _) => ("target_has_atomic", atomic_value(width)),
        (AskedTarget::PointerWidth(bits), _) => {
            ("target_pointer_width", Value::Number(u16::from(bits)))
        }
    }
}

/// Writes a predicate on the target.
fn write_target<W: Write, A: Allocator>(
    target: &TargetPredicate<'_, A>,
    writer: &mut W,
) -> io::Result<()> {
    let (key, value) = target_parts(target);
    write_value(writer, key, value)
}

/// Writes a predicate.
fn write_predicate<W: Write, A: Allocator>(
    predicate: &Predicate<'_, A>,
    writer: &mut W,
) -> io::Result<()> {
    match predicate {
        Predicate::Target(target) => write_target(target, writer),
        Predicate::Test => write_bytes(writer, b"test"),
        Predicate::DebugAssertions => write_bytes(writer, b"debug_assertions"),
        Predicate::ProcMacro => write_bytes(writer, b"proc_macro"),
        Predicate::Feature(name) => write_value(writer, "feature", Value::Text(name)),
        Predicate::TargetFeature(name) => write_value(writer, "target_feature", Value::Text(name)),
        Predicate::Flag(key) => write_bytes(writer, key.as_bytes()),
        Predicate::KeyValue { key, val } => write_value(writer, key, Value::Text(val)),
    }
}

/// Writes the spelling of a predicate: its key, and for a value ` = ` and the value in quotes.
/// `docs/RULES.md` has the table. Takes no memory.
///
/// Calls `write` as often as the writer needs, never with an empty slice. A call that failed is not
/// tried again, not even one that was interrupted.
///
/// A predicate that can stand in a text, such as one of an expression, can be parsed from its
/// spelling: nothing is stripped, and the expression asks this predicate alone.
///
/// # Errors
///
/// The error of the writer, or `WriteZero` if it takes no byte. A prefix of the spelling is written
/// then.
pub fn spell<W: Write, A: Allocator>(
    predicate: &Predicate<'_, A>,
    writer: &mut W,
) -> io::Result<()> {
    write_predicate(predicate, writer)
}
