// Made of crates/cfgx_engine/src/resolve/index.rt
// by bindings/rust/engine/make, which leaves its contracts out. Nobody edits this file.

//! What the facts of at most 64 targets say of predicates, in sorted lists. A binary search finds a
//! predicate for all of these targets at once.

use crate::engine::cfg_expr::expr::AskedTexts;
use crate::engine::cfg_expr::expr::logic::{Kleene64, Logic};
use crate::engine::rattle::alloc::{AllocError, Allocator};
use crate::engine::rattle::prelude::Vec;
use std::cmp::Ordering;

/// Predicates that facts name, in order, and the answers of at most 64 targets to each of them. The
/// lane of a target whose facts do not name the predicate is false.
///
/// Contracts see a list of entries.
pub(super) struct Entries<'a, A: Allocator> {
    asked: Vec<AskedTexts<'a>, A>,
    answers: Vec<Kleene64, A>,
}

impl<'a, A: Allocator> Entries<'a, A> {
    /// Returns no entries. Takes no memory.
    pub(super) fn none(alloc: A) -> Entries<'a, A>
    where
        A: Copy,
    {
        Entries {
            asked: Vec::new(alloc),
            answers: Vec::new(alloc),
        }
    }

    /// Returns the entries of these predicates, which have to be in order, with these answers.
    pub(super) fn of(asked: Vec<AskedTexts<'a>, A>, answers: Vec<Kleene64, A>) -> Entries<'a, A> {
        Entries { asked, answers }
    }

    /// Returns the answers to the predicate that asks `asked`: false in each lane if there is
    /// no entry.
    pub(super) fn answers_to(&self, asked: &AskedTexts<'_>) -> Kleene64 {
        let names = self.asked.as_slice();
        let answers = self.answers.as_slice();
        match names.binary_search_by(|name| name.cmp(asked)) {
            Ok(place) => answers[place],
            Err(_) => Kleene64::bottom(),
        }
    }
}

/// Whether the last predicate is that which asks `asked`.
pub(super) fn ends_with(names: &[AskedTexts<'_>], asked: &AskedTexts<'_>) -> bool {
    match names.last() {
        Some(last) => last.cmp(asked).is_eq(),
        None => false,
    }
}

/// Merges two lists into one: a predicate that both have gets the answers of both, joined.
pub(super) fn merged<'a, A: Allocator + Copy>(
    alloc: A,
    one: &Entries<'a, A>,
    other: &Entries<'a, A>,
) -> Result<Entries<'a, A>, AllocError> {
    let one_names = one.asked.as_slice();
    let one_answers = one.answers.as_slice();
    let other_names = other.asked.as_slice();
    let other_answers = other.answers.as_slice();
    let most = one_names.len().saturating_add(other_names.len());
    let mut names = Vec::with_capacity(alloc, most)?;
    let mut answers = Vec::with_capacity(alloc, most)?;
    let (mut i, mut j) = (0, 0);
    while i < one_names.len() && j < other_names.len() {
        let (first, second) = (&one_names[i], &other_names[j]);
        let order = first.cmp(second);
        names.push(lesser(order, first, second))?;
        answers.push(joined(order, one_answers[i], other_answers[j]))?;
        i += usize::from(order.is_le());
        j += usize::from(order.is_ge());
    }
    names.extend_from_slice(left(one_names, i))?;
    names.extend_from_slice(left(other_names, j))?;
    answers.extend_from_slice(left(one_answers, i))?;
    answers.extend_from_slice(left(other_answers, j))?;
    Ok(Entries::of(names, answers))
}

/// Returns the items from the place `from` on.
fn left<T>(items: &[T], from: usize) -> &[T] {
    items.get(from..).unwrap_or(&[])
}

/// Returns the lesser of two predicates, which compare as `order`.
fn lesser<'a>(order: Ordering, one: &AskedTexts<'a>, other: &AskedTexts<'a>) -> AskedTexts<'a> {
    if order.is_le() { *one } else { *other }
}

/// Returns the answers to the lesser of two predicates, which compare as `order`: those of both,
/// joined, if they are equal.
fn joined(order: Ordering, one: Kleene64, other: Kleene64) -> Kleene64 {
    match order {
        Ordering::Less => one,
        Ordering::Greater => other,
        Ordering::Equal => one.or(other),
    }
}

/// Returns `answer` in the lane `lane`, and false in every other lane.
pub(super) fn one_lane(lane: usize, answer: Option<bool>) -> Kleene64 {
    let mut answers = Kleene64::bottom().push_front(answer);
    for _ in 0..lane {
        answers = answers.push_front(Some(false));
    }
    answers
}

/// Returns `answer` in each lane.
pub(super) fn all_lanes(answer: Option<bool>) -> Kleene64 {
    match answer {
        Some(true) => Kleene64::top(),
        Some(false) => Kleene64::bottom(),
        None => Kleene64::new(0, 0),
    }
}
