// Made of crates/cfg_expr/src/expr/condition.rt
// by bindings/rust/engine/make, which leaves its contracts out. Nobody edits this file.

//! Borrowed conditions, and a reader that reads one condition after another.

use super::{
    Decision, FromStep, LocatedPredicates, Logic, Predicate, Predicates, Step, evaluating, filling,
    steps,
};
use crate::engine::cfg_expr::error::Failure;
use crate::engine::cfg_expr::memory::SmallAllocator;
use crate::engine::cfgx_parser::nodes::ExprNode;
use crate::engine::cfgx_parser::parser::Parser;
use crate::engine::cfgx_syntax::lexer::Lexer;
use crate::engine::cfgx_syntax::logic::Kleene64;
use crate::engine::cfgx_syntax::stripping::{Stripped, strip};
use crate::engine::rattle::alloc::{AllocError, Global};
use crate::engine::rattle::prelude::Vec;
use std::{fmt, mem};

/// A condition that borrows its nodes from an `Expression` or a `ConditionReader`. The text is that
/// of the `Expression`, or the one that was read. Contracts see it as its stripped text.
pub struct Condition<'a> {
    /// The stripped text; the name is that of `cfg-expr`
    pub(super) original: &'a str,
    /// In source order
    pub(super) nodes: &'a [ExprNode],
    /// The indices of the predicates among the nodes, in the order in which they are asked
    pub(super) places: &'a [usize],
}

impl<'a> Condition<'a> {
    /// Returns the text without an outer `cfg( )`. Spans are ranges of its bytes.
    pub fn original(&self) -> &'a str {
        self.original
    }

    /// Returns the nodes of the tree, in source order. `n` nodes take at least `2 * n - 1` bytes.
    pub(super) fn nodes(&self) -> &'a [ExprNode] {
        self.nodes
    }

    /// Returns the places of the predicates among the nodes, in the order in which they are asked.
    pub(super) fn places(&self) -> &'a [usize] {
        self.places
    }

    /// Returns the predicates in the order in which they are asked, as `Expression::predicates`
    /// does.
    pub fn predicates(&self) -> Predicates<'a> {
        Predicates::new(self.original, self.located_predicates())
    }

    /// Returns the predicates where they stand, in the order in which they are asked.
    pub fn located_predicates(&self) -> LocatedPredicates<'a> {
        LocatedPredicates {
            nodes: self.nodes,
            places: self.places,
        }
    }

    /// Evaluates the condition over what `ep` answers, as `Expression::eval` does.
    ///
    /// # Errors
    ///
    /// `AllocError`: `alloc` refused memory, which happens only for a text of more than 66 bytes.
    /// `ep` is as it was.
    pub fn eval<EP, T, A>(&self, alloc: A, ep: &mut EP) -> Result<T, AllocError>
    where
        EP: FnMut(&Predicate<'_>) -> T,
        T: Logic,
        A: SmallAllocator,
    {
        evaluating::eval(alloc, self, ep)
    }

    /// Evaluates the condition over the answers that `answers` gives, one for each predicate in the
    /// order of `predicates`. All answers are taken before any are joined.
    ///
    /// # Errors
    ///
    /// `AllocError`: `alloc` refused memory, which happens only for a text of more than 66 bytes.
    pub fn eval_over<T, I, A>(&self, alloc: A, answers: I) -> Result<T, AllocError>
    where
        T: Logic,
        I: Iterator<Item = T>,
        A: SmallAllocator,
    {
        evaluating::eval_over(alloc, self, answers)
    }

    /// Decides the condition as `Expression::decide` does, and replaces `decision`. New fillings
    /// reuse the memory of those that it holds. `Decision::Known(_)` holds none.
    ///
    /// # Errors
    ///
    /// `AllocError`: `alloc` refused memory. `decision` keeps the value or the fillings that it
    /// holds.
    pub fn decide<A: SmallAllocator>(
        &self,
        alloc: A,
        answers: &[Option<bool>],
        decision: &mut Decision<A>,
    ) -> Result<(), AllocError> {
        filling::decide(alloc, self, answers, decision)
    }

    /// Returns the two fillings of `decide`, or `None` if the value is known, as
    /// `Expression::polar_fillings` does.
    ///
    /// # Errors
    ///
    /// `AllocError`: `alloc` refused memory.
    pub fn polar_fillings<A: SmallAllocator>(
        &self,
        alloc: A,
        answers: &[Option<bool>],
    ) -> Result<Option<(Vec<bool, A>, Vec<bool, A>)>, AllocError> {
        let mut decision = Decision::Known(false);
        self.decide(alloc, answers, &mut decision)?;
        match decision {
            Decision::Known(_) => Ok(None),
            Decision::Unknown { if_true, if_false } => Ok(Some((if_true, if_false))),
        }
    }

    /// Writes the two fillings of `decide` as bytes, a byte for each answer: 0 for false, and 1 for
    /// true. `if_true` and `if_false` have as many bytes as there are answers. The fillings are
    /// those of `decide` if the value is unknown. With a known value they are written too, and each
    /// leads to that value.
    ///
    /// # Errors
    ///
    /// `AllocError`: `alloc` refused memory. Both buffers are as they were.
    pub fn write_fillings<A: SmallAllocator>(
        &self,
        alloc: A,
        answers: &[Option<bool>],
        if_true: &mut [u8],
        if_false: &mut [u8],
    ) -> Result<(), AllocError> {
        filling::write_fillings(alloc, self, answers, if_true, if_false)
    }

    /// Evaluates the condition in 64 lanes at once, as `Expression::eval_lanes` does.
    ///
    /// # Errors
    ///
    /// `AllocError`: `alloc` refused memory, which happens only for a text of more than 66 bytes.
    pub fn eval_lanes<A: SmallAllocator>(
        &self,
        alloc: A,
        answers: &[Kleene64],
    ) -> Result<Kleene64, AllocError> {
        evaluating::eval_over_slice(alloc, self, answers)
    }

    /// Returns the number of steps of the condition, which has no more steps than bytes.
    pub fn step_count(&self) -> usize {
        self.nodes().len()
    }

    /// Writes the steps of the condition into `buffer`, each in a form of its own. `buffer` has as
    /// many items as there are steps. Takes no memory.
    pub fn write_steps<T: FromStep>(&self, buffer: &mut [T]) {
        steps::write_steps(self, buffer)
    }

    /// Compiles the condition to steps, as `Expression::steps` does.
    ///
    /// # Errors
    ///
    /// `AllocError`: `alloc` refused memory.
    pub fn steps<A: SmallAllocator>(&self, alloc: A) -> Result<Vec<Step, A>, AllocError> {
        steps::steps_of(alloc, self)
    }
}

/// Writes the `Debug` form of the stripped text in parentheses.
impl fmt::Debug for Condition<'_> {
    fn fmt(&self, f: &mut fmt::Formatter) -> fmt::Result {
        write!(f, "Condition({:?})", self.original())
    }
}

/// Makes the parser ready for a text of `len` bytes. One that has read nothing is not cleared,
/// since that would cost a tenth of reading a short text.
#[inline(always)]
fn begin<A: SmallAllocator>(
    parser: &mut Parser<'_, A>,
    has_read: bool,
    len: usize,
) -> Result<(), AllocError> {
    if has_read {
        return parser.restart(len);
    }
    parser.prepare_for(len);
    Ok(())
}

/// Reads one condition after another in the same memory. A read allocates only for a faulty text
/// and for one that needs more room than any before. There is one exception: the read that follows
/// the first text with a node may move the parser's vectors to the heap, where they are cleared
/// faster than inline. Contracts see whether it has read a text.
pub struct ConditionReader<'a, A: SmallAllocator = Global> {
    alloc: A,
    parser: Parser<'a, A>,
    /// Whether `read` was called, so the parser has to be cleared before it reads the next text
    has_read: bool,
}

impl<'a, A: SmallAllocator> ConditionReader<'a, A> {
    /// Makes a reader, which has read nothing. Takes no memory.
    pub fn new(alloc: A) -> Self {
        ConditionReader {
            alloc,
            parser: Parser::new(alloc, 0),
            has_read: false,
        }
    }

    /// Reads a text, which may stand in `cfg( )`, and returns its condition, which borrows the
    /// text. The condition can be used until the next call of `read`.
    ///
    /// # Errors
    ///
    /// `Failure::Parse`: the first fault of the text, whose span lies in the text without an outer
    /// `cfg( )`. `Failure::Memory`: the allocator refused memory. The first read of a reader does
    /// not fail so if the text is a condition of at most 4 bytes, counted without an outer
    /// `cfg( )`. After either error, the next text can be read.
    #[inline(always)]
    pub fn read(&mut self, text: &'a str) -> Result<Condition<'_>, Failure<A>> {
        self.read_stripped(strip(text))
    }

    /// Reads a text that is stripped already, as `read` does.
    ///
    /// # Errors
    ///
    /// Those of `read`.
    #[inline(always)]
    pub fn read_stripped(&mut self, stripped: Stripped<'a>) -> Result<Condition<'_>, Failure<A>> {
        let lexer = Lexer::of_stripped(self.alloc, stripped);
        let original = lexer.original();
        let has_read = mem::replace(&mut self.has_read, true);
        begin(&mut self.parser, has_read, original.len())?;
        // The failure of a faulty text holds a copy of the text, which is what `alloc` is for.
        self.parser.read_all(self.alloc, lexer)?;
        let parser = &self.parser;
        Ok(Condition {
            original,
            nodes: parser.nodes(),
            places: parser.places(),
        })
    }
}

/// Writes the name alone.
impl<A: SmallAllocator> fmt::Debug for ConditionReader<'_, A> {
    fn fmt(&self, f: &mut fmt::Formatter) -> fmt::Result {
        f.debug_struct("ConditionReader").finish_non_exhaustive()
    }
}
