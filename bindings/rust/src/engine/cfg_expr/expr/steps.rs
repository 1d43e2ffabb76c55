// Made of crates/cfg_expr/src/expr/steps.rt
// by bindings/rust/engine/make, which leaves its contracts out. Nobody edits this file.

//! The steps of conditions, and the value of any steps.
//!
//! The steps of a condition are its nodes as they stand in the text: a function stands in front of
//! its members. They are read from the last to the first, with the stack that evaluates a
//! condition.

use super::evaluating::{Slot, Stack, literal_value, push_empty_slots};
use super::{Condition, Func};
use crate::engine::cfg_expr::memory::SmallAllocator;
use crate::engine::cfgx_parser::nodes::ExprNode;
use crate::engine::cfgx_syntax::logic::Logic;
use crate::engine::rattle::alloc::AllocError;
use crate::engine::rattle::prelude::{Vec, vec};
use crate::engine::rattle::smallvec::SmallVec;

/// A step of the evaluation of a condition, which is a node of its tree. Steps are read from the
/// last to the first. Equal steps have the same variant, and the same truth value, number or
/// function.
#[derive(Clone, Copy, Debug)]
pub enum Step {
    /// Pushes the answer to the predicate with this number. Predicates are numbered from 0, in the
    /// order in which they are asked
    Ask(usize),
    /// Pushes `top` for true, and `bottom` for false
    Literal(bool),
    /// Pops the values of the members, the first member first, and pushes the value of the function
    Function(Func),
}

impl PartialEq for Step {
    fn eq(&self, other: &Self) -> bool {
        match (self, other) {
            (Step::Ask(one), Step::Ask(other)) => one == other,
            (Step::Literal(one), Step::Literal(other)) => one == other,
            (Step::Function(one), Step::Function(other)) => one == other,
            _ => false,
        }
    }
}

impl Eq for Step {}

/// Why steps have no value over answers.
#[derive(Debug)]
pub enum StepsError {
    /// There are more or fewer answers than steps that ask
    Miscounted,
    /// The steps are not those of one tree, or a step asks for an answer that is not there
    NoValue,
    /// The allocator refused memory
    Memory(AllocError),
}

impl From<AllocError> for StepsError {
    fn from(refused: AllocError) -> StepsError {
        StepsError::Memory(refused)
    }
}

/// Reads `step` over `answers`: pushes its answer or its value, or applies it. Returns `None` if
/// the answer is missing, or if a function finds too few members.
fn read_step<T: Logic + Copy>(step: Step, answers: &[T], stack: &mut Stack<'_, T>) -> Option<()> {
    match step {
        Step::Ask(number) => stack.push(Slot::Leaf(*answers.get(number)?)),
        Step::Literal(truth) => stack.push(Slot::Leaf(literal_value(truth))),
        Step::Function(func) => stack.apply(func)?,
    }
    Some(())
}

/// Reads the steps from the last to the first over `answers`, and returns the value that is left
/// alone, or `None` if there is none. There is a slot for each step.
fn read_steps<T: Logic + Copy>(steps: &[Step], answers: &[T], slots: &mut [Slot<T>]) -> Option<T> {
    let begin = slots.len();
    let mut stack = Stack { slots, begin };
    for place in (0..steps.len()).rev() {
        read_step(steps[place], answers, &mut stack)?;
    }
    stack.into_value()
}

/// Returns the number of steps that ask.
fn count_asks(steps: &[Step]) -> usize {
    steps
        .iter()
        .filter(|step| matches!(step, Step::Ask(_)))
        .count()
}

/// Returns the value that the steps have over `answers`. Any list of steps may be passed. A step
/// that asks takes the answer that has its number. If the steps are those of a condition, and the
/// answers are those to its predicates in the order in which they are asked, this is its value.
///
/// Takes no memory for up to 33 steps.
///
/// # Errors
///
/// `StepsError::Miscounted`: there are more or fewer answers than steps that ask.
/// `StepsError::NoValue`: otherwise, the steps are not those of one tree, or a step asks for an
/// answer that is not there. `StepsError::Memory`: `alloc` refused memory.
pub fn eval_steps<T, A>(alloc: A, steps: &[Step], answers: &[T]) -> Result<T, StepsError>
where
    T: Logic + Copy,
    A: SmallAllocator,
{
    if count_asks(steps) != answers.len() {
        return Err(StepsError::Miscounted);
    }
    let mut slots = SmallVec::new(&alloc);
    push_empty_slots(&mut slots, steps.len())?;
    match read_steps(steps, answers, slots.as_mut_slice()) {
        Some(value) => Ok(value),
        None => Err(StepsError::NoValue),
    }
}

/// What a step becomes in a buffer of steps.
pub trait FromStep: Copy {
    /// Returns the form of `step`.
    fn from_step(step: Step) -> Self;
}

impl FromStep for Step {
    fn from_step(step: Step) -> Step {
        step
    }
}

/// Returns the step of a node. That of a predicate asks for the answer 0, until `write_numbers`
/// writes the step with its own number.
fn step_of(node: &ExprNode) -> Step {
    match node {
        ExprNode::Fn { func, .. } => Step::Function(*func),
        ExprNode::Literal(truth) => Step::Literal(*truth),
        ExprNode::Predicate(_) => Step::Ask(0),
    }
}

/// Writes the step of each node, in order, as `step_of` returns it.
fn write_nodes<T: FromStep>(nodes: &[ExprNode], buffer: &mut [T]) {
    for place in 0..nodes.len() {
        buffer[place] = T::from_step(step_of(&nodes[place]));
    }
}

/// Writes steps that ask for the answers 0, 1, 2 and so on, one at each of `places`, over those
/// that `write_nodes` wrote.
fn write_numbers<T: FromStep>(places: &[usize], buffer: &mut [T]) {
    for number in 0..places.len() {
        buffer[places[number]] = T::from_step(Step::Ask(number));
    }
}

/// Writes the steps of a condition into `buffer`, in time proportional to their number.
pub(crate) fn write_steps<T: FromStep>(condition: &Condition<'_>, buffer: &mut [T]) {
    write_nodes(condition.nodes(), buffer);
    write_numbers(condition.places(), buffer);
}

/// Returns the steps of a condition, in time proportional to the number of its nodes.
///
/// # Errors
///
/// `AllocError`: `alloc` refused memory.
pub(crate) fn steps_of<A: SmallAllocator>(
    alloc: A,
    condition: &Condition<'_>,
) -> Result<Vec<Step, A>, AllocError> {
    let mut steps = vec![in alloc; Step::Literal(false); condition.step_count()]?;
    write_steps(condition, steps.as_mut_slice());
    Ok(steps)
}
