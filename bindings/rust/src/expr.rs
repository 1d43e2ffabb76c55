//! Conditions, and the predicates that they ask.

pub mod lexer;
pub mod logic;
mod predicate;

use crate::engine::cfg_expr::expr;
use crate::engine::rattle::alloc::Global;
use crate::error::ParseError;
use crate::memory;
pub use logic::Logic;
pub(crate) use predicate::Named;
pub use predicate::{Predicate, TargetMatcher, TargetPredicate};
use std::fmt;
use std::hash::{Hash, Hasher};
use std::str::FromStr;

/// A function of a condition, with the number of its members.
///
/// No call takes or returns it. `cfg-expr` has it too.
///
/// ```
/// use cfgx::expr::Func;
///
/// assert!(Func::Not < Func::All(0) && Func::All(2) < Func::Any(1));
/// ```
pub use crate::engine::cfgx_parser::function::Func;

/// A parsed condition.
///
/// The engine parses the text once. An expression is plain data, so threads may share it.
///
/// Two expressions are equal if their texts are equal, without an outer `cfg( )`: `key` and `key,`
/// are not. Equal expressions have the same hash. An expression prints this text.
///
/// ```
/// use cfgx::{Expression, Predicate};
/// use std::collections::HashSet;
///
/// let expression = Expression::parse("cfg(any(unix, feature = \"x\"))")?;
/// assert!(expression.eval(|predicate| matches!(predicate, Predicate::Feature("x"))));
/// assert_eq!(expression.to_string(), "any(unix, feature = \"x\")");
///
/// let same = Expression::parse("any(unix, feature = \"x\")")?;
/// let other = Expression::parse("any(unix, feature = \"x\",)")?;
/// assert_eq!(HashSet::from([expression, same, other]).len(), 2);
/// # Ok::<(), cfgx::ParseError>(())
/// ```
pub struct Expression {
    parsed: expr::Expression,
}

/// What [`Expression::decide`] found.
///
/// ```
/// use cfgx::{Decision, Expression};
///
/// let expression = Expression::parse("all(a, not(b))").unwrap();
/// let decision = expression.decide(|_| None);
/// let Decision::Unknown { if_true, if_false, .. } = decision else {
///     panic!("nothing is known")
/// };
/// // The predicate below `not` is asked first.
/// assert_eq!(if_true, [false, true]);
/// assert_eq!(if_false, [true, false]);
/// ```
#[derive(Clone, Debug, PartialEq, Eq)]
#[non_exhaustive]
pub enum Decision {
    /// The value, whatever the unknown answers are
    Known(bool),
    /// The value depends on the unknown answers, as two fillings show. A filling has one truth
    /// value for each answer, in order. For a known answer it is that answer
    #[non_exhaustive]
    Unknown {
        /// A filling with which the condition is true
        if_true: Vec<bool>,
        /// A filling with which the condition is false
        if_false: Vec<bool>,
    },
}

impl Expression {
    /// Parses a condition, which may stand in `cfg( )`.
    ///
    /// # Errors
    ///
    /// The first fault of the text, if it is no condition.
    ///
    /// # Memory
    ///
    /// Without memory, this call and each other one of the crate end the process by
    /// [`handle_alloc_error`](std::alloc::handle_alloc_error), as those of `Vec` do.
    ///
    /// ```
    /// use cfgx::Expression;
    ///
    /// assert!(Expression::parse("all(unix, test)").is_ok());
    /// assert!(Expression::parse("all(unix").is_err());
    /// ```
    pub fn parse(text: &str) -> Result<Self, ParseError> {
        match expr::Expression::parse(Global, text) {
            Ok(parsed) => Ok(Expression { parsed }),
            Err(failure) => Err(ParseError::new(failure, text.len())),
        }
    }

    /// Returns the text without an outer `cfg( )`.
    ///
    /// ```
    /// use cfgx::Expression;
    ///
    /// assert_eq!(Expression::parse("cfg(unix)").unwrap().original(), "unix");
    /// ```
    #[must_use]
    pub fn original(&self) -> &str {
        self.parsed.original()
    }

    /// Returns the condition as the engine borrows it.
    #[inline]
    pub(crate) fn condition(&self) -> expr::Condition<'_> {
        self.parsed.condition()
    }

    /// Returns the predicates in the order in which they are asked: those of a list's functions,
    /// one function after another, and then the list's own. A predicate that stands twice is listed
    /// twice.
    ///
    /// ```
    /// use cfgx::{Expression, Predicate};
    ///
    /// let expression = Expression::parse("all(a, any(b), c)").unwrap();
    /// let asked: Vec<Predicate<'_>> = expression.predicates().collect();
    /// assert_eq!(
    ///     asked,
    ///     [Predicate::Flag("b"), Predicate::Flag("a"), Predicate::Flag("c")]
    /// );
    /// ```
    pub fn predicates(&self) -> impl Iterator<Item = Predicate<'_>> {
        let condition = self.condition();
        let text = condition.original();
        let located = condition.located_predicates();
        located.map(|predicate| Predicate::of(&predicate, text))
    }

    /// Evaluates the condition over what `eval_predicate` answers to its predicates.
    ///
    /// Each occurrence of a predicate is asked once, in the order of
    /// [`predicates`](Expression::predicates). The members of `all` are joined by `and` to `top`,
    /// and those of `any` by `or` to `bottom`: from the last back, first the predicates and
    /// literals of the list, and then its functions. All predicates are asked before the first
    /// values are joined.
    ///
    /// ```
    /// use cfgx::{Expression, Predicate};
    ///
    /// let expression = Expression::parse("any(unix, feature = \"x\")").unwrap();
    /// let value: Option<bool> = expression.eval(|predicate| match predicate {
    ///     Predicate::Feature(name) => Some(*name == "x"),
    ///     _ => None,
    /// });
    /// assert_eq!(value, Some(true));
    /// ```
    pub fn eval<EP, T>(&self, mut eval_predicate: EP) -> T
    where
        EP: FnMut(&Predicate<'_>) -> T,
        T: Logic,
    {
        let condition = self.condition();
        let text = condition.original();
        let located = condition.located_predicates();
        let answers = located.map(|one| Predicate::ask(&one, text, &mut eval_predicate));
        memory::granted(condition.eval_over(Global, answers), text.len())
    }

    /// Decides the condition over answers of which some may be unknown: returns its value, or two
    /// fillings of the unknown answers, one with which it is true and one with which it is false.
    ///
    /// Each occurrence of a predicate is asked once, in the order of
    /// [`predicates`](Expression::predicates), and is filled by itself. So a filling may make the
    /// same predicate true in one place and false in another. The value is known exactly if every
    /// filling leads to it.
    ///
    /// ```
    /// use cfgx::{Decision, Expression, Predicate};
    ///
    /// let expression = Expression::parse("any(unix, feature = \"x\")").unwrap();
    /// let decision = expression.decide(|predicate| match predicate {
    ///     Predicate::Target(_) => Some(true),
    ///     _ => None,
    /// });
    /// assert_eq!(decision, Decision::Known(true));
    /// ```
    #[must_use]
    pub fn decide<EP>(&self, mut eval_predicate: EP) -> Decision
    where
        EP: FnMut(&Predicate<'_>) -> Option<bool>,
    {
        let condition = self.condition();
        let text = condition.original();
        let located = condition.located_predicates();
        let mut answers = Vec::with_capacity(located.left());
        answers.extend(located.map(|one| Predicate::ask(&one, text, &mut eval_predicate)));
        let decision = self.parsed.decide(Global, &answers);
        match memory::granted(decision, text.len()) {
            expr::Decision::Known(value) => Decision::Known(value),
            expr::Decision::Unknown { if_true, if_false } => Decision::Unknown {
                if_true: if_true.into_std(),
                if_false: if_false.into_std(),
            },
        }
    }
}

impl Clone for Expression {
    fn clone(&self) -> Self {
        let parsed = self.parsed.try_clone(Global);
        Expression {
            parsed: memory::granted(parsed, self.original().len()),
        }
    }
}

impl FromStr for Expression {
    type Err = ParseError;

    /// Does what [`Expression::parse`] does.
    fn from_str(text: &str) -> Result<Self, ParseError> {
        Expression::parse(text)
    }
}

impl fmt::Display for Expression {
    fn fmt(&self, f: &mut fmt::Formatter<'_>) -> fmt::Result {
        f.write_str(self.original())
    }
}

impl fmt::Debug for Expression {
    fn fmt(&self, f: &mut fmt::Formatter<'_>) -> fmt::Result {
        f.debug_tuple("Expression").field(&self.original()).finish()
    }
}

impl PartialEq for Expression {
    fn eq(&self, other: &Self) -> bool {
        self.original() == other.original()
    }
}

impl Eq for Expression {}

impl Hash for Expression {
    fn hash<H: Hasher>(&self, state: &mut H) {
        self.original().hash(state);
    }
}
