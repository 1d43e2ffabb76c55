// Made of crates/cfgx_engine/src/resolve/facts.rt
// by bindings/rust/engine/make, which leaves its contracts out. Nobody edits this file.

//! Facts of a target, and what they answer to predicates.

use super::index::{Entries, merged, one_lane};
use super::named::NamedPredicates;
use crate::engine::cfg_expr::Predicate;
use crate::engine::cfg_expr::error::{Failure, ParseError};
use crate::engine::cfg_expr::expr::{AskedTexts, ConditionReader};
use crate::engine::cfg_expr::memory::SmallAllocator;
use crate::engine::cfgx_parser::unaskable::is_unaskable;
use crate::engine::rattle::alloc::{AllocError, Allocator, Global};

/// The answer to a predicate that no fact names.
#[derive(Clone, Copy, Debug)]
pub enum Otherwise {
    /// False
    False,
    /// False for a `Predicate::Target`, and unknown for every other predicate
    Unknown,
}

impl PartialEq for Otherwise {
    fn eq(&self, other: &Self) -> bool {
        matches!(
            (self, other),
            (Otherwise::False, Otherwise::False) | (Otherwise::Unknown, Otherwise::Unknown)
        )
    }
}

impl Eq for Otherwise {}

/// Why facts were not read.
#[derive(Debug)]
pub enum FactsError<A: Allocator = Global> {
    /// A fact is refused, and none before it is
    Faulty {
        /// The index of the fact
        index: usize,
        /// What is wrong with its text, without the `?` that it may begin with
        error: ParseError<A>,
    },
    /// The allocator refused memory. This does not say whether a fact is faulty
    Memory(AllocError),
}

impl<A: Allocator> FactsError<A> {
    /// Returns the error of the fact at `index`.
    fn at(index: usize, failure: Failure<A>) -> FactsError<A> {
        match failure {
            Failure::Parse(error) => FactsError::Faulty { index, error },
            Failure::Memory(error) => FactsError::Memory(error),
        }
    }
}

/// Leaves out the index of the fact.
impl<A: Allocator> From<FactsError<A>> for Failure<A> {
    fn from(error: FactsError<A>) -> Failure<A> {
        match error {
            FactsError::Faulty { error, .. } => Failure::Parse(error),
            FactsError::Memory(error) => Failure::Memory(error),
        }
    }
}

/// What becomes of facts that no condition can ask.
#[derive(Clone, Copy)]
enum UnaskableFacts {
    /// They are refused, as is every other text that is no condition
    Refused,
    /// They are passed over
    PassedOver,
}

/// What is known of a target: which predicates are true, and which are unknown. Contracts see texts
/// that name these predicates.
///
/// A fact is a text, or `?` and a text. It names every predicate in its text, also one below a
/// `not`: as unknown if it begins with `?`, and otherwise as true. A predicate that facts of both
/// kinds name is true.
#[derive(Debug)]
pub struct Facts<A: SmallAllocator = Global> {
    true_names: NamedPredicates<A>,
    unknown_names: NamedPredicates<A>,
}

impl<A: SmallAllocator> Facts<A> {
    /// Reads each of `flags` as a fact, as `cfgx eval` does, and returns the facts.
    ///
    /// # Errors
    ///
    /// `FactsError::Faulty`: the first fact whose text is no condition. `FactsError::Memory`:
    /// `alloc` refused memory.
    pub fn from_flags(alloc: A, flags: &[&str]) -> Result<Facts<A>, FactsError<A>> {
        Facts::read(alloc, flags, UnaskableFacts::Refused)
    }

    /// Reads facts, such as the lines of `rustc --print cfg`, and returns them. A fact that no
    /// condition can ask is passed over: its text is a key, or a key, `=` and a value. The key
    /// begins with `target_` and is not known, or it lacks the value that it needs, such as a bare
    /// `feature`. Some compilers print such lines.
    ///
    /// # Errors
    ///
    /// `FactsError::Faulty`: the first other fact whose text is no condition.
    /// `FactsError::Memory`: `alloc` refused memory.
    pub fn from_rustc(alloc: A, lines: &[&str]) -> Result<Facts<A>, FactsError<A>> {
        Facts::read(alloc, lines, UnaskableFacts::PassedOver)
    }

    /// Reads `facts` one after another.
    fn read(
        alloc: A,
        facts: &[&str],
        unaskable: UnaskableFacts,
    ) -> Result<Facts<A>, FactsError<A>> {
        let mut reader = ConditionReader::new(alloc);
        let mut true_names = NamedPredicates::new(alloc);
        let mut unknown_names = NamedPredicates::new(alloc);
        for (index, fact) in facts.iter().enumerate() {
            let added = add_fact(
                alloc,
                &mut reader,
                &mut true_names,
                &mut unknown_names,
                fact,
                unaskable,
            );
            if let Err(failure) = added {
                return Err(FactsError::at(index, failure));
            }
        }
        true_names.sort();
        unknown_names.sort();
        Ok(Facts {
            true_names,
            unknown_names,
        })
    }

    /// Returns the answer of the facts to `predicate`: true if a fact names it as true, otherwise
    /// unknown if a fact names it as unknown, and otherwise what `otherwise` says.
    pub fn answer(&self, predicate: &Predicate<'_>, otherwise: Otherwise) -> Option<bool> {
        let unnamed = unnamed_answer(predicate, otherwise);
        // This test costs less than taking the predicate apart.
        if self.true_names.is_empty() && self.unknown_names.is_empty() {
            return unnamed;
        }
        self.answer_to(&predicate.asked_texts(), unnamed)
    }

    /// Returns the answer of the facts to the predicate that asks `asked`, which is `unnamed`
    /// if no fact names it.
    fn answer_to(&self, asked: &AskedTexts<'_>, unnamed: Option<bool>) -> Option<bool> {
        if self.true_names.has(asked) {
            Some(true)
        } else if self.unknown_names.has(asked) {
            None
        } else {
            unnamed
        }
    }

    /// Returns an entry for each predicate that the facts name. It has the answer of the facts in
    /// the lane `lane`, and false in every other lane.
    pub(super) fn entries<'a>(
        &'a self,
        alloc: A,
        lane: usize,
    ) -> Result<Entries<'a, A>, AllocError> {
        let true_ones = self.true_names.entries(alloc, one_lane(lane, Some(true)))?;
        let unknown_ones = self.unknown_names.entries(alloc, one_lane(lane, None))?;
        merged(alloc, &true_ones, &unknown_ones)
    }
}

/// Reads a fact and adds what it names, if it is not passed over.
fn add_fact<'a, A: SmallAllocator>(
    alloc: A,
    reader: &mut ConditionReader<'a, A>,
    true_names: &mut NamedPredicates<A>,
    unknown_names: &mut NamedPredicates<A>,
    fact: &'a str,
    unaskable: UnaskableFacts,
) -> Result<(), Failure<A>> {
    match fact.strip_prefix('?') {
        Some(text) => add_text(alloc, reader, unknown_names, text, unaskable),
        None => add_text(alloc, reader, true_names, fact, unaskable),
    }
}

/// Reads the text of a fact and adds what it names, if it is not passed over.
fn add_text<'a, A: SmallAllocator>(
    alloc: A,
    reader: &mut ConditionReader<'a, A>,
    names: &mut NamedPredicates<A>,
    text: &'a str,
    unaskable: UnaskableFacts,
) -> Result<(), Failure<A>> {
    match reader.read(text) {
        Ok(condition) => Ok(names.add(condition.predicates())?),
        Err(Failure::Parse(error)) => match unaskable {
            UnaskableFacts::Refused => Err(Failure::Parse(error)),
            UnaskableFacts::PassedOver => {
                if is_unaskable(alloc, text)? {
                    Ok(())
                } else {
                    Err(Failure::Parse(error))
                }
            }
        },
        Err(failure) => Err(failure),
    }
}

/// Returns the answer to a predicate that no fact names.
pub(super) fn unnamed_answer(predicate: &Predicate<'_>, otherwise: Otherwise) -> Option<bool> {
    match otherwise {
        Otherwise::False => Some(false),
        Otherwise::Unknown => match predicate {
            Predicate::Target(_) => Some(false),
            _ => None,
        },
    }
}
