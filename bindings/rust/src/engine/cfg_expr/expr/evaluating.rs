// Made of crates/cfg_expr/src/expr/evaluating.rt
// by bindings/rust/engine/make, which leaves its contracts out. Nobody edits this file.

//! Evaluation of a condition in any `Logic`. In those of `Option<bool>` and of the 64 lanes of
//! `Kleene64`, an answer may be unknown: they are Kleene's strong logic.
//!
//! Each answer goes into the slot of its node. Then the nodes are read from the last to the first,
//! with one stack: a leaf is pushed, and a function, whose node has the number of its members,
//! replaces the values of its members by its own. The only entry left is the value of the
//! condition.
//!
//! Unread answers occupy the front of the slots, and the stack occupies the back. They never
//! overlap, since each node has one slot and pushes one entry.
//!
//! The nodes are in the order of the text. Predicates are asked in the order of `cfg-expr`: for
//! each function, first those below its member functions, one function after another, and then
//! those that are its own members. So `all(a, any(b, not(c)), d)` asks c, b, a and d. Members are
//! joined in the reverse of this order.

use super::{Condition, Func, Predicate, Predicates};
use crate::engine::cfg_expr::memory::SmallAllocator;
use crate::engine::cfgx_parser::nodes::ExprNode;
use crate::engine::cfgx_syntax::logic::Logic;
use crate::engine::rattle::alloc::{AllocError, Allocator};
use crate::engine::rattle::smallvec::SmallVec;
use std::mem;

/// An unread answer, or an entry of the stack, which is the value of a subtree.
#[derive(Default)]
pub(crate) enum Slot<T> {
    /// Nothing: no answer was put here, or what stood here was taken
    #[default]
    Empty,
    /// The answer to a predicate, or the value of a literal
    Leaf(T),
    /// The value of a function, which is joined after all leaves of its list
    Function(T),
}

impl<T: Logic> Slot<T> {
    /// Takes the value out of the slot and returns it, if there is one.
    fn take(&mut self) -> Option<T> {
        match mem::replace(self, Slot::Empty) {
            Slot::Leaf(value) | Slot::Function(value) => Some(value),
            Slot::Empty => None,
        }
    }
}

/// How members are joined: those of `all` by `and`, and those of `any` by `or`.
#[derive(Clone, Copy)]
pub(crate) enum Connective {
    And,
    Or,
}

impl Connective {
    /// Returns the value of a function without members.
    pub(super) fn identity<T: Logic>(self) -> T {
        match self {
            Connective::And => T::top(),
            Connective::Or => T::bottom(),
        }
    }

    /// Returns `value` joined with `member`.
    pub(super) fn join<T: Logic>(self, value: T, member: T) -> T {
        match self {
            Connective::And => value.and(member),
            Connective::Or => value.or(member),
        }
    }

    /// Joins the leaves among the members, from the last to the first, and moves the functions to
    /// the end of the slice. Returns the joined value, and the place where the functions begin.
    fn join_leaves<T: Logic>(self, members: &mut [Slot<T>]) -> (T, usize) {
        let mut value = self.identity();
        let mut begin = members.len();
        for place in (0..members.len()).rev() {
            match mem::replace(&mut members[place], Slot::Empty) {
                Slot::Leaf(leaf) => value = self.join(value, leaf),
                Slot::Function(function) => {
                    begin -= 1;
                    members[begin] = Slot::Function(function);
                }
                Slot::Empty => {}
            }
        }
        (value, begin)
    }

    /// Returns `value` joined with each value in the slots, from the last to the first.
    fn join_values<T: Logic>(self, value: T, slots: &mut [Slot<T>]) -> T {
        let mut value = value;
        for place in (0..slots.len()).rev() {
            if let Some(member) = slots[place].take() {
                value = self.join(value, member);
            }
        }
        value
    }

    /// Returns the joined value of the members: first the leaves are joined and then the functions,
    /// each from the last to the first. The members are in the order of the text. `cfg-expr` joins
    /// in the same order, which matters to a `Logic` in which `a.and(b)` may differ from
    /// `b.and(a)`.
    fn join_all<T: Logic>(self, members: &mut [Slot<T>]) -> T {
        let (leaves, begin) = self.join_leaves(members);
        self.join_values(leaves, &mut members[begin..])
    }
}

/// Returns the value of a function over its members, or `None` if the member of `not` has none.
fn apply_to<T: Logic>(func: Func, members: &mut [Slot<T>]) -> Option<T> {
    match func {
        Func::Not => Some(members[0].take()?.not()),
        Func::All(_) => Some(Connective::And.join_all(members)),
        Func::Any(_) => Some(Connective::Or.join_all(members)),
    }
}

/// Returns the value of a literal.
pub(super) fn literal_value<T: Logic>(truth: bool) -> T {
    if truth { T::top() } else { T::bottom() }
}

/// The stack of the subtrees that no function has joined yet. It occupies the slots from `begin`
/// on, and its top entry is the first of them. Before the node at `place` is read, `begin` is
/// greater than `place`.
pub(crate) struct Stack<'a, T> {
    pub(super) slots: &'a mut [Slot<T>],
    pub(super) begin: usize,
}

impl<T: Logic> Stack<'_, T> {
    /// Pushes `entry`.
    pub(super) fn push(&mut self, entry: Slot<T>) {
        self.begin -= 1;
        self.slots[self.begin] = entry;
    }

    /// Replaces the members of a function, which are the top entries, by its value. Returns `None`
    /// if there are fewer entries, or if the member of `not` has no value.
    pub(super) fn apply(&mut self, func: Func) -> Option<()> {
        let count = func.members();
        if count > self.slots.len() - self.begin {
            return None;
        }
        let end = self.begin + count;
        let value = apply_to(func, &mut self.slots[self.begin..end])?;
        self.begin = end;
        self.push(Slot::Function(value));
        Some(())
    }

    /// Reads `node`, whose slot is at `place`: pushes its answer or its value, or applies it.
    /// Returns `None` if a function finds too few members, or if the member of `not` has no value.
    fn read(&mut self, node: &ExprNode, place: usize) -> Option<()> {
        match node {
            ExprNode::Predicate(_) => {
                let answer = mem::replace(&mut self.slots[place], Slot::Empty);
                self.push(answer);
            }
            ExprNode::Literal(truth) => self.push(Slot::Leaf(literal_value(*truth))),
            ExprNode::Fn { func, .. } => self.apply(*func)?,
        }
        Some(())
    }

    /// Returns the value of the only entry, or `None` unless there is exactly one.
    pub(super) fn into_value(self) -> Option<T> {
        if self.slots.len() - self.begin != 1 {
            return None;
        }
        self.slots[self.begin].take()
    }
}

/// Reads the nodes from the last to the first over the answers in the slots, and returns the value
/// that is left alone, or `None` if there is none. There is one if the nodes are those of a tree,
/// and each of its predicates has an answer.
fn eval_nodes<T: Logic>(nodes: &[ExprNode], slots: &mut [Slot<T>]) -> Option<T> {
    let begin = slots.len();
    let mut stack = Stack { slots, begin };
    for place in (0..nodes.len()).rev() {
        stack.read(&nodes[place], place)?;
    }
    stack.into_value()
}

/// Pushes `count` empty slots to `slots`, which is new. Up to 36 are inline and take no memory.
/// `eval_steps` promises this for 33 steps. `eval` promises it for a text of at most 66 bytes: `n`
/// nodes take at least `2 * n - 1` bytes, so this one has at most 33.
// A new vector that was returned in a `Result` would be copied out of it.
pub(super) fn push_empty_slots<T: Logic, A: Allocator>(
    slots: &mut SmallVec<Slot<T>, 36, &A>,
    count: usize,
) -> Result<(), AllocError> {
    slots.reserve_exact(count)?;
    for _place in 0..count {
        slots.push_reserved(Slot::Empty);
    }
    Ok(())
}

/// Puts `answer` into the slot at `place`.
fn put_answer<T: Logic>(answer: T, place: usize, slots: &mut [Slot<T>]) {
    slots[place] = Slot::Leaf(answer);
}

/// Returns what `ep` answers to `predicate`. The predicate is dropped here, since a drop in the
/// loop of `ask_each` would take longer to prove.
fn ask<EP, T>(predicate: Predicate<'_>, ep: &mut EP) -> T
where
    EP: FnMut(&Predicate<'_>) -> T,
{
    ep(&predicate)
}

/// Asks `ep` each predicate, and puts its answer into the slot at its place. `places` has the
/// places in the same order.
fn ask_each<EP, T>(places: &[usize], predicates: Predicates<'_>, slots: &mut [Slot<T>], ep: &mut EP)
where
    EP: FnMut(&Predicate<'_>) -> T,
    T: Logic,
{
    for (place, predicate) in places.iter().zip(predicates) {
        put_answer(ask(predicate, ep), *place, slots);
    }
}

/// Puts the `answers` into the slots at `places`, until one of the two ends.
fn put_each<T: Logic, I: Iterator<Item = T>>(places: &[usize], answers: I, slots: &mut [Slot<T>]) {
    for (place, answer) in places.iter().zip(answers) {
        put_answer(answer, *place, slots);
    }
}

/// Returns the value of the condition, and asks `ep` for the answer to each predicate.
///
/// # Errors
///
/// `AllocError`: `alloc` refused memory for the slots. `ep` is as it was.
pub(crate) fn eval<EP, T, A>(
    alloc: A,
    condition: &Condition<'_>,
    ep: &mut EP,
) -> Result<T, AllocError>
where
    EP: FnMut(&Predicate<'_>) -> T,
    T: Logic,
    A: SmallAllocator,
{
    let nodes = condition.nodes();
    let mut slots = SmallVec::new(&alloc);
    push_empty_slots(&mut slots, nodes.len())?;
    let slots = slots.as_mut_slice();
    ask_each(condition.places(), condition.predicates(), slots, ep);
    // By the invariant of `Condition`, the nodes are those of a tree, and so have a value.
    Ok(eval_nodes(nodes, slots).unwrap())
}

/// Returns the value of the condition over the answers that `answers` gives, as
/// `Condition::eval_over` does. This differs from `eval` in where an answer comes from.
///
/// # Errors
///
/// `AllocError`: `alloc` refused memory for the slots.
pub(crate) fn eval_over<T, I, A>(
    alloc: A,
    condition: &Condition<'_>,
    answers: I,
) -> Result<T, AllocError>
where
    T: Logic,
    I: Iterator<Item = T>,
    A: SmallAllocator,
{
    let nodes = condition.nodes();
    let mut slots = SmallVec::new(&alloc);
    push_empty_slots(&mut slots, nodes.len())?;
    let slots = slots.as_mut_slice();
    put_each(condition.places(), answers, slots);
    // By the invariant of `Condition`, the nodes are those of a tree, and so have a value.
    Ok(eval_nodes(nodes, slots).unwrap())
}

/// Returns the value of the condition over `answers`, as `Condition::eval_over` does.
pub(crate) fn eval_over_slice<T, A>(
    alloc: A,
    condition: &Condition<'_>,
    answers: &[T],
) -> Result<T, AllocError>
where
    T: Logic + Copy,
    A: SmallAllocator,
{
    eval_over(alloc, condition, answers.iter().copied())
}
