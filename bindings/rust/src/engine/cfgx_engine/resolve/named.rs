// Made of crates/cfgx_engine/src/resolve/named.rt
// by bindings/rust/engine/make, which leaves its contracts out. Nobody edits this file.

//! The predicates that facts name, sorted, so that a binary search finds one.

use super::index::{Entries, ends_with};
use crate::engine::cfg_expr::Predicate;
use crate::engine::cfg_expr::expr::logic::Kleene64;
use crate::engine::cfg_expr::expr::{AskedTexts, Predicates};
use crate::engine::rattle::alloc::{AllocError, Allocator};
use crate::engine::rattle::prelude::Vec;

/// A predicate that facts name. `kind` and `number` are those of its `AskedTexts`. In the buffer,
/// its key begins at `start`, and its value directly follows.
#[derive(Clone, Copy, Debug)]
struct NamedPredicate {
    kind: u32,
    number: Option<u32>,
    start: usize,
    key_len: usize,
    value_len: usize,
}

impl NamedPredicate {
    /// Returns what it asks, with its texts, which lie in `buffer`.
    #[inline(always)]
    fn asked_texts(self, buffer: &[u8]) -> AskedTexts<'_> {
        let texts = behind(buffer, self.start);
        AskedTexts {
            kind: self.kind,
            number: self.number,
            key: front(texts, self.key_len),
            value: front(behind(texts, self.key_len), self.value_len),
        }
    }
}

/// Returns the first `len` bytes, or all if there are fewer.
// There never are, here or in `behind`: by the invariant of `NamedPredicates`, the texts lie in the
// buffer.
fn front(bytes: &[u8], len: usize) -> &[u8] {
    bytes.get(..len).unwrap_or(bytes)
}

/// Returns what follows the first `len` bytes.
fn behind(bytes: &[u8], len: usize) -> &[u8] {
    bytes.get(len..).unwrap_or(&[])
}

/// Predicates that facts name. Contracts see a `Code` for each.
#[derive(Debug)]
pub(super) struct NamedPredicates<A: Allocator> {
    /// The texts of the predicates
    buffer: Vec<u8, A>,
    named: Vec<NamedPredicate, A>,
}

impl<A: Allocator> NamedPredicates<A> {
    /// Makes an empty list. Takes no memory.
    pub(super) fn new(alloc: A) -> NamedPredicates<A>
    where
        A: Copy,
    {
        NamedPredicates {
            buffer: Vec::new(alloc),
            named: Vec::new(alloc),
        }
    }

    /// Whether nothing was added.
    pub(super) fn is_empty(&self) -> bool {
        self.named.is_empty()
    }

    /// Adds predicates, and copies their texts.
    pub(super) fn add(&mut self, predicates: Predicates<'_>) -> Result<(), AllocError> {
        for predicate in predicates {
            self.push(&predicate)?;
        }
        Ok(())
    }

    /// Adds a predicate.
    fn push(&mut self, predicate: &Predicate<'_>) -> Result<(), AllocError> {
        let AskedTexts {
            kind,
            number,
            key,
            value,
        } = predicate.asked_texts();
        let start = self.buffer.len();
        self.buffer.extend_from_slice(key)?;
        self.buffer.extend_from_slice(value)?;
        self.named.push(NamedPredicate {
            kind,
            number,
            start,
            key_len: key.len(),
            value_len: value.len(),
        })?;
        Ok(())
    }

    /// Sorts the predicates, so that `has` finds each.
    pub(super) fn sort(&mut self) {
        let buffer = self.buffer.as_slice();
        self.named
            .sort_unstable_by(|one, other| one.asked_texts(buffer).cmp(&other.asked_texts(buffer)));
    }

    /// Whether the predicate that asks `asked` was added. Those that were added have to be
    /// sorted.
    // Inlined, so that an empty list costs no call.
    #[inline(always)]
    pub(super) fn has(&self, asked: &AskedTexts<'_>) -> bool {
        !self.is_empty() && self.finds(asked)
    }

    /// Whether a binary search finds the predicate that asks `asked`. Those that were added
    /// have to be sorted.
    fn finds(&self, asked: &AskedTexts<'_>) -> bool {
        let buffer = self.buffer.as_slice();
        let found = self
            .named
            .binary_search_by(|named| named.asked_texts(buffer).cmp(asked));
        found.is_ok()
    }

    /// Returns an entry with `answers` for each predicate that was added. They have to be sorted.
    pub(super) fn entries<'a>(
        &'a self,
        alloc: A,
        answers: Kleene64,
    ) -> Result<Entries<'a, A>, AllocError>
    where
        A: Copy,
    {
        let buffer = self.buffer.as_slice();
        let all = self.named.as_slice();
        let mut names = Vec::with_capacity(alloc, all.len())?;
        let mut answered = Vec::with_capacity(alloc, all.len())?;
        for named in all {
            let asked = named.asked_texts(buffer);
            // A predicate that several facts name stands more than once.
            if ends_with(names.as_slice(), &asked) {
                continue;
            }
            names.push(asked)?;
            answered.push(answers)?;
        }
        Ok(Entries::of(names, answered))
    }
}
