// Made of crates/cfgx_engine/src/resolve/by_facts.rt
// by bindings/rust/engine/make, which leaves its contracts out. Nobody edits this file.

//! The values of many conditions on many targets that answer by their facts.

use super::auditing::{Batch, push_batch};
use super::facts::{Facts, Otherwise, unnamed_answer};
use super::index::{Entries, all_lanes, merged};
use crate::engine::cfg_expr::Predicate;
use crate::engine::cfg_expr::error::Failure;
use crate::engine::cfg_expr::expr::logic::{Kleene64, Logic};
use crate::engine::cfg_expr::expr::{Condition, ConditionReader};
use crate::engine::cfg_expr::memory::SmallAllocator;
use crate::engine::rattle::alloc::{AllocError, Allocator, Global};
use crate::engine::rattle::prelude::Vec;

/// At most 64 targets, and what their facts say. Contracts see the targets.
struct Indexed<'a, A: SmallAllocator> {
    targets: &'a [Facts<A>],
    /// For each predicate that a fact names, the answers of the targets
    entries: Entries<'a, A>,
}

/// Returns an entry for each predicate that facts of the targets name. The answers of the targets
/// stand in the lanes from `first` on, and every other lane is false.
///
/// The targets are halved and the entries of both halves merged, so an entry is copied once for
/// each halving. There are at most 64 targets, so the recursion is at most seven calls deep.
fn entries_of<'a, A: SmallAllocator>(
    alloc: A,
    targets: &'a [Facts<A>],
    first: usize,
) -> Result<Entries<'a, A>, AllocError> {
    if targets.is_empty() {
        return Ok(Entries::none(alloc));
    }
    if targets.len() == 1 {
        return targets[0].entries(alloc, first);
    }
    let (front, back) = targets.split_at(targets.len() / 2);
    let front_entries = entries_of(alloc, front, first)?;
    let back_entries = entries_of(alloc, back, first + front.len())?;
    merged(alloc, &front_entries, &back_entries)
}

impl<'a, A: SmallAllocator> Indexed<'a, A> {
    /// Finds what the facts of at most 64 targets say.
    fn of(alloc: A, targets: &'a [Facts<A>]) -> Result<Indexed<'a, A>, AllocError> {
        let entries = entries_of(alloc, targets, 0)?;
        Ok(Indexed { targets, entries })
    }

    /// Returns the number of targets.
    fn count(&self) -> usize {
        self.targets.len()
    }

    /// Returns the answers to a predicate: lane `i` is that of target `i`.
    fn ask(&self, predicate: &Predicate<'_>, otherwise: Otherwise) -> Kleene64 {
        let named = self.entries.answers_to(&predicate.asked_texts());
        // If no fact of a target names the predicate, its lane is false and takes the unnamed
        // answer. Else it is true or unknown, and stays so, since that answer is false or unknown.
        named.or(all_lanes(unnamed_answer(predicate, otherwise)))
    }
}

/// Targets that answer by their facts.
#[derive(Clone, Copy)]
struct ByFacts<'p, 'a, A: SmallAllocator> {
    indexed: &'p Indexed<'a, A>,
    /// The answer to a predicate that no fact names
    otherwise: Otherwise,
}

impl<A: SmallAllocator> Batch<Facts<A>> for ByFacts<'_, '_, A> {
    fn count(&self) -> usize {
        self.indexed.count()
    }

    fn ask(&self, predicate: Predicate<'_>) -> Kleene64 {
        self.indexed.ask(&predicate, self.otherwise)
    }
}

/// Returns the targets in batches of 64, each with what its facts say.
fn indexed_batches<A: SmallAllocator>(
    alloc: A,
    targets: &[Facts<A>],
) -> Result<Vec<Indexed<'_, A>, A>, AllocError> {
    let mut batches = Vec::new(alloc);
    let mut left = targets;
    while !left.is_empty() {
        let (batch, others) = left.split_at(left.len().min(64));
        batches.push(Indexed::of(alloc, batch)?)?;
        left = others;
    }
    Ok(batches)
}

/// Why an audit ended without values.
#[derive(Debug)]
pub struct AuditError<A: Allocator = Global> {
    /// The index of the text at which it ended. Each text before it is a condition
    pub index: usize,
    /// What is wrong with this text, or that the allocator refused memory
    pub failure: Failure<A>,
}

/// Returns the value of each condition on each target: with `n` targets, item `i * n + j` is that
/// of condition `i` on target `j`. A target answers by its facts, and `otherwise` is the answer to
/// a predicate that no fact names.
///
/// Targets are taken in batches of 64, and the facts of each batch are merged once into one sorted
/// list. Then each condition is read once. For each batch, each predicate of the condition is
/// looked up once, and the condition is evaluated once.
///
/// # Errors
///
/// `Failure::Parse`: the fault of the first faulty text. `Failure::Memory`: `alloc` refused memory.
/// With both, each text before the one at `index` is a condition.
pub fn audit_facts<A: SmallAllocator>(
    alloc: A,
    conditions: &[&str],
    targets: &[Facts<A>],
    otherwise: Otherwise,
) -> Result<Vec<Option<bool>, A>, AuditError<A>> {
    let mut values = Vec::new(alloc);
    // Without a text, nothing asks the targets, and an error would have no index.
    if conditions.is_empty() {
        return Ok(values);
    }
    let Ok(batches) = indexed_batches(alloc, targets) else {
        let failure = Failure::Memory(AllocError);
        return Err(AuditError { index: 0, failure });
    };
    let batches = batches.as_slice();
    let mut reader = ConditionReader::new(alloc);
    for index in 0..conditions.len() {
        let text = conditions[index];
        if let Err(failure) = push_text(alloc, &mut reader, text, batches, otherwise, &mut values) {
            return Err(AuditError { index, failure });
        }
    }
    Ok(values)
}

/// Returns the value of each condition on each target, as `audit_facts` does. The conditions are
/// read already.
///
/// # Errors
///
/// `AllocError`: `alloc` refused memory.
pub fn audit_conditions<A: SmallAllocator>(
    alloc: A,
    conditions: &[Condition<'_>],
    targets: &[Facts<A>],
    otherwise: Otherwise,
) -> Result<Vec<Option<bool>, A>, AllocError> {
    let mut values = Vec::new(alloc);
    let batches = indexed_batches(alloc, targets)?;
    let batches = batches.as_slice();
    for condition in conditions {
        push_batches(alloc, batches, otherwise, condition, &mut values)?;
    }
    Ok(values)
}

/// Reads a text, and pushes its value on each target.
fn push_text<'a, A: SmallAllocator>(
    alloc: A,
    reader: &mut ConditionReader<'a, A>,
    text: &'a str,
    batches: &[Indexed<'_, A>],
    otherwise: Otherwise,
    values: &mut Vec<Option<bool>, A>,
) -> Result<(), Failure<A>> {
    let condition = reader.read(text)?;
    Ok(push_batches(alloc, batches, otherwise, &condition, values)?)
}

/// Evaluates the condition on each target of the batches, and pushes each value.
fn push_batches<A: SmallAllocator>(
    alloc: A,
    batches: &[Indexed<'_, A>],
    otherwise: Otherwise,
    condition: &Condition<'_>,
    values: &mut Vec<Option<bool>, A>,
) -> Result<(), AllocError> {
    for indexed in batches {
        push_batch(alloc, &ByFacts { indexed, otherwise }, condition, values)?;
    }
    Ok(())
}
