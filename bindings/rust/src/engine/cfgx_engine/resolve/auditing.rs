// Made of crates/cfgx_engine/src/resolve/auditing.rt
// by bindings/rust/engine/make, which leaves its contracts out. Nobody edits this file.

//! The values of a condition on many targets. One evaluation in 64 lanes serves up to 64 of them.

use crate::engine::cfg_expr::Predicate;
use crate::engine::cfg_expr::expr::logic::Kleene64;
use crate::engine::cfg_expr::expr::{Condition, TargetMatcher};
use crate::engine::cfg_expr::memory::SmallAllocator;
use crate::engine::rattle::alloc::{AllocError, Allocator};
use crate::engine::rattle::prelude::Vec;

/// At most 64 targets of the type `T`, which are asked together.
pub(super) trait Batch<T> {
    /// Returns the number of targets.
    fn count(&self) -> usize;

    /// Returns the answers to a predicate: lane `i` is that of target `i`.
    // By value, since a drop in the loop of `ask_all` would take longer to prove.
    fn ask(&self, predicate: Predicate<'_>) -> Kleene64;
}

/// At most 64 matchers. A predicate that is no `Predicate::Target` is unknown.
struct ByMatching<'a, M> {
    matchers: &'a [M],
}

impl<M: TargetMatcher> Batch<M> for ByMatching<'_, M> {
    fn count(&self) -> usize {
        self.matchers.len()
    }

    fn ask(&self, predicate: Predicate<'_>) -> Kleene64 {
        match &predicate {
            Predicate::Target(target) => target.lanes(self.matchers),
            _ => Kleene64::new(0, 0),
        }
    }
}

/// Evaluates the condition on each matcher, and pushes each value, converted to `V`, in order. For
/// each batch of at most 64 matchers, the condition is evaluated once. Each matcher is asked each
/// predicate on the target once.
pub(super) fn push_values<A: SmallAllocator, M: TargetMatcher, V: From<Option<bool>>>(
    alloc: A,
    condition: &Condition<'_>,
    matchers: &[M],
    values: &mut Vec<V, A>,
) -> Result<(), AllocError> {
    let mut left = matchers;
    while !left.is_empty() {
        let (batch, others) = left.split_at(left.len().min(64));
        push_batch(alloc, &ByMatching { matchers: batch }, condition, values)?;
        left = others;
    }
    Ok(())
}

/// Evaluates the condition on each target of a batch, and pushes each value, converted to `V`.
pub(super) fn push_batch<A: SmallAllocator, T, S: Batch<T>, V: From<Option<bool>>>(
    alloc: A,
    batch: &S,
    condition: &Condition<'_>,
    values: &mut Vec<V, A>,
) -> Result<(), AllocError> {
    let answers = ask_all(alloc, batch, condition)?;
    let value = condition.eval_lanes(alloc, answers.as_slice())?;
    push_lanes(value, batch.count(), values)
}

/// Asks a batch each predicate of the condition, in order.
fn ask_all<A: SmallAllocator, T, S: Batch<T>>(
    alloc: A,
    batch: &S,
    condition: &Condition<'_>,
) -> Result<Vec<Kleene64, A>, AllocError> {
    let predicates = condition.predicates();
    let mut answers = Vec::with_capacity(alloc, predicates.left())?;
    for predicate in predicates {
        answers.push(batch.ask(predicate))?;
    }
    Ok(answers)
}

/// Converts the values in the first `count` lanes to `V`, and pushes them.
fn push_lanes<A: Allocator, V: From<Option<bool>>>(
    value: Kleene64,
    count: usize,
    values: &mut Vec<V, A>,
) -> Result<(), AllocError> {
    for i in 0..count {
        values.push(V::from(value.lane(i)))?;
    }
    Ok(())
}
