// Made of crates/cfg_expr/src/expr/filling.rt
// by bindings/rust/engine/make, which leaves its contracts out. Nobody edits this file.

//! Decides a condition when some answers to its predicates may be unknown. The decision is the
//! value of the condition or, if that is unknown, two fillings: a filling has a truth value for
//! each answer, and the condition is true with the first filling and false with the second. Each
//! occurrence of a predicate has an answer of its own.
//!
//! Both fillings keep the known answers. For an unknown answer, the first filling has true if its
//! predicate is below an even number of `not`, and false otherwise. The second filling has the
//! opposite value. The condition never turns false when an answer below an even number of `not`
//! turns true, or one below an odd number turns false. So it is true with the first filling if it
//! is true with any, and false with the second if it is false with any.
//!
//! One pass over the nodes makes the list `negated`, which says of each node whether it is a
//! predicate below an odd number of `not`. The node of a `not` has the length of its subtree, so
//! the pass knows where the `not` ends. Until it reaches an entry, this says whether an odd number
//! of `not` ends in front of the node. Up to 36 entries are inline and take no memory.

use super::{Condition, Decision, Func, evaluating};
use crate::engine::cfg_expr::memory::SmallAllocator;
use crate::engine::cfgx_parser::nodes::ExprNode;
use crate::engine::rattle::alloc::{AllocError, Allocator};
use crate::engine::rattle::prelude::Vec;
use crate::engine::rattle::smallvec::SmallVec;

/// Turns the entry at `place`, if there is one, into its opposite.
fn turn(entries: &mut [bool], place: usize) {
    if place < entries.len() {
        entries[place] = !entries[place];
    }
}

/// Takes the step of the pass at `node`, to which the first of `entries` belongs, and the others to
/// the nodes behind it. `is_odd` says whether `node` is below an odd number of `not`, if none ends
/// in front of it. Returns the same for the next node.
fn pass_node(node: &ExprNode, is_odd: bool, entries: &mut [bool]) -> bool {
    let is_odd = is_odd != entries[0];
    match node {
        ExprNode::Fn {
            func: Func::Not,
            len,
        } => {
            // If no node is behind the subtree, nothing is turned.
            turn(entries, *len);
            entries[0] = false;
            !is_odd
        }
        ExprNode::Predicate(_) => {
            entries[0] = is_odd;
            is_odd
        }
        ExprNode::Fn { .. } | ExprNode::Literal(_) => {
            entries[0] = false;
            is_odd
        }
    }
}

/// Passes over the nodes, and sets for each, in `negated`, whether it is a predicate below an odd
/// number of `not`. Before, all entries are false.
fn pass_nodes(nodes: &[ExprNode], negated: &mut [bool]) {
    let mut is_odd = false;
    for place in 0..nodes.len() {
        is_odd = pass_node(&nodes[place], is_odd, &mut negated[place..]);
    }
}

/// Returns, for each node, whether it is a predicate below an odd number of `not`.
fn negated_among<'a, A: SmallAllocator>(
    alloc: &'a A,
    nodes: &[ExprNode],
) -> Result<SmallVec<bool, 36, &'a A>, AllocError> {
    let mut negated = SmallVec::from_elem(alloc, false, nodes.len())?;
    pass_nodes(nodes, negated.as_mut_slice());
    Ok(negated)
}

/// Makes the capacity of `filling` at least `count`. Its items stay.
fn ensure_capacity<A: Allocator>(
    filling: &mut Vec<bool, A>,
    count: usize,
) -> Result<(), AllocError> {
    filling.reserve(count.saturating_sub(filling.len()))
}

/// Returns what a filling has for an answer: the answer, if it is known. For an unknown one it is
/// `fill`, or the opposite of `fill` if `is_negated` is true.
fn filled(answer: Option<bool>, fill: bool, is_negated: bool) -> bool {
    answer.unwrap_or(fill != is_negated)
}

/// Replaces the items of `if_true` and `if_false` by the two fillings of `answers`. `places` has,
/// for each answer, the place of its predicate among the nodes. `negated` says of each node whether
/// it is a predicate below an odd number of `not`.
///
/// # Errors
///
/// `AllocError`: the allocator refused memory. Both keep their items, since room is made before
/// anything is cleared.
fn set_fillings<A: SmallAllocator>(
    if_true: &mut Vec<bool, A>,
    if_false: &mut Vec<bool, A>,
    negated: &[bool],
    places: &[usize],
    answers: &[Option<bool>],
) -> Result<(), AllocError> {
    ensure_capacity(if_true, places.len())?;
    ensure_capacity(if_false, places.len())?;
    if_true.clear();
    if_false.clear();
    for (place, answer) in places.iter().zip(answers) {
        let is_negated = negated[*place];
        if_true.push_reserved(filled(*answer, true, is_negated));
        if_false.push_reserved(filled(*answer, false, is_negated));
    }
    Ok(())
}

/// Replaces `decision` by the two fillings of `answers`. Reuses the memory of the fillings that it
/// has.
///
/// # Errors
///
/// `AllocError`: `alloc` refused memory. `decision` keeps what it holds.
fn set_unknown<A: SmallAllocator>(
    alloc: A,
    decision: &mut Decision<A>,
    negated: &[bool],
    places: &[usize],
    answers: &[Option<bool>],
) -> Result<(), AllocError> {
    if let Decision::Unknown { if_true, if_false } = decision {
        return set_fillings(if_true, if_false, negated, places, answers);
    }
    let mut if_true = Vec::new(alloc);
    let mut if_false = Vec::new(alloc);
    set_fillings(&mut if_true, &mut if_false, negated, places, answers)?;
    *decision = Decision::Unknown { if_true, if_false };
    Ok(())
}

/// Replaces `decision` by what `answers` decide. New fillings reuse the memory of those that it
/// holds.
///
/// # Errors
///
/// `AllocError`: `alloc` refused memory. `decision` keeps what it holds.
pub(crate) fn decide<A: SmallAllocator>(
    alloc: A,
    condition: &Condition<'_>,
    answers: &[Option<bool>],
    decision: &mut Decision<A>,
) -> Result<(), AllocError> {
    // In the logic of `Option<bool>`, `None` is unknown.
    if let Some(value) = evaluating::eval_over_slice(alloc, condition, answers)? {
        *decision = Decision::Known(value);
        return Ok(());
    }
    let negated = negated_among(&alloc, condition.nodes())?;
    let places = condition.places();
    set_unknown(alloc, decision, negated.as_slice(), places, answers)
}

/// Returns a truth value as a byte.
fn truth_byte(truth: bool) -> u8 {
    if truth { 1 } else { 0 }
}

/// Writes the filling of `answers` with `fill` to `buffer`, a byte for each answer. `places` and
/// `negated` are as in `set_fillings`.
fn write_filling(
    negated: &[bool],
    places: &[usize],
    answers: &[Option<bool>],
    fill: bool,
    buffer: &mut [u8],
) {
    let mut written = 0;
    for (place, answer) in places.iter().zip(answers) {
        buffer[written] = truth_byte(filled(*answer, fill, negated[*place]));
        written += 1;
    }
}

/// Writes the two fillings of `answers` as bytes: the first to `if_true`, and the second to
/// `if_false`. Each has room for a byte for each answer.
///
/// # Errors
///
/// `AllocError`: `alloc` refused memory. Both buffers are as they were, since all memory is taken
/// before anything is written.
pub(crate) fn write_fillings<A: SmallAllocator>(
    alloc: A,
    condition: &Condition<'_>,
    answers: &[Option<bool>],
    if_true: &mut [u8],
    if_false: &mut [u8],
) -> Result<(), AllocError> {
    let negated = negated_among(&alloc, condition.nodes())?;
    let negated = negated.as_slice();
    let places = condition.places();
    write_filling(negated, places, answers, true, if_true);
    write_filling(negated, places, answers, false, if_false);
    Ok(())
}
