// Made of crates/cfg_expr/src/expr/asked_texts.rt
// by bindings/rust/engine/make, which leaves its contracts out. Nobody edits this file.

//! What predicates ask, with their texts, by which they are compared.

use std::cmp::Ordering;

/// What a predicate asks: the numbers of an `Asked`, and the texts. Predicates that are not equal
/// have different ones.
#[derive(Clone, Copy, Debug)]
pub struct AskedTexts<'a> {
    /// The number of its kind, as `Asked::kind` tells it
    pub kind: u32,
    /// The number that it asks for, as `Asked::number` tells it
    pub number: Option<u32>,
    /// The bytes of the key of a `Flag` or a `KeyValue`; for every other predicate none
    pub key: &'a [u8],
    /// The bytes of the value, if it is a text, else none
    pub value: &'a [u8],
}

impl PartialEq for AskedTexts<'_> {
    fn eq(&self, other: &Self) -> bool {
        self.kind == other.kind
            && self.number == other.number
            && self.key == other.key
            && self.value == other.value
    }
}

impl Eq for AskedTexts<'_> {}

impl PartialOrd for AskedTexts<'_> {
    fn partial_cmp(&self, other: &Self) -> Option<Ordering> {
        Some(self.cmp(other))
    }
}

/// The kinds are compared first, and then the numbers that are asked for: a predicate without such
/// a number is less than one with it. Then the lengths of key and value are compared, and last the
/// bytes of both. So texts are compared only if all numbers are equal.
impl Ord for AskedTexts<'_> {
    // Inlined, since most predicates that a search meets are of another kind, and then nothing else
    // is compared.
    #[inline(always)]
    fn cmp(&self, other: &Self) -> Ordering {
        let kinds = self.kind.cmp(&other.kind);
        if kinds.is_ne() {
            return kinds;
        }
        let numbers = compare_numbers(self.number, other.number);
        if numbers.is_ne() {
            return numbers;
        }
        let key_lens = self.key.len().cmp(&other.key.len());
        if key_lens.is_ne() {
            return key_lens;
        }
        let value_lens = self.value.len().cmp(&other.value.len());
        if value_lens.is_ne() {
            return value_lens;
        }
        let keys = self.key.cmp(&other.key);
        if keys.is_ne() {
            return keys;
        }
        self.value.cmp(&other.value)
    }
}

/// Compares two numbers. `None` is less than any number.
fn compare_numbers(one: Option<u32>, other: Option<u32>) -> Ordering {
    match (one, other) {
        (Some(one), Some(other)) => one.cmp(&other),
        (Some(_), None) => Ordering::Greater,
        (None, Some(_)) => Ordering::Less,
        (None, None) => Ordering::Equal,
    }
}
