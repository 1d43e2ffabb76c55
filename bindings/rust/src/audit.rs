//! The values of many conditions on many targets.

use crate::engine::cfg_expr::error;
use crate::engine::cfg_expr::expr::Condition;
use crate::engine::cfgx_engine::resolve::{self, FactsError, audit_conditions};
use crate::engine::cfgx_syntax::stripping::strip;
use crate::engine::rattle::alloc::Global;
use crate::error::Reason;
use crate::expr::Expression;
use crate::memory;
use std::borrow::Borrow;
use std::error::Error;
use std::fmt;
use std::iter::FusedIterator;
use std::ops::Range;

/// What is known about a target, such as the lines of `rustc --print cfg`.
///
/// A fact is a text, whose predicates are true. If the text begins with `?`, the predicates in the
/// rest of it are unknown. A predicate that is both is true.
///
/// ```
/// use cfgx::Facts;
///
/// let mut facts = Facts::new("unix\ntarget_os=\"linux\"\n".lines());
/// facts.push("feature = \"x\"");
/// facts.extend(["?test", "loom"]);
/// assert_eq!(facts.get(1), Some("target_os=\"linux\""));
/// assert_eq!(facts.iter().last(), Some("loom"));
/// assert_eq!(facts.len(), 5);
/// ```
#[derive(Clone, Default, PartialEq, Eq, Hash)]
pub struct Facts {
    /// The facts one after another
    texts: String,
    /// The number of bytes up to the end of each
    ends: Vec<usize>,
}

impl Facts {
    /// Returns the facts in order. [`audit`] checks whether each text is a fact.
    ///
    /// ```
    /// use cfgx::Facts;
    ///
    /// assert_eq!(Facts::new(["unix", "test"]).len(), 2);
    /// ```
    #[must_use]
    pub fn new<I>(facts: I) -> Facts
    where
        I: IntoIterator,
        I::Item: AsRef<str>,
    {
        facts.into_iter().collect()
    }

    /// Adds a fact.
    ///
    /// ```
    /// use cfgx::Facts;
    ///
    /// let mut facts = Facts::default();
    /// facts.push("unix");
    /// assert_eq!(facts, Facts::new(["unix"]));
    /// ```
    pub fn push(&mut self, fact: &str) {
        self.texts.push_str(fact);
        self.ends.push(self.texts.len());
    }

    /// Returns the fact with this number, counted from 0.
    ///
    /// ```
    /// use cfgx::Facts;
    ///
    /// let facts = Facts::new(["unix"]);
    /// assert_eq!(facts.get(0), Some("unix"));
    /// assert_eq!(facts.get(1), None);
    /// ```
    #[must_use]
    pub fn get(&self, number: usize) -> Option<&str> {
        let end = *self.ends.get(number)?;
        let before = number.checked_sub(1);
        let start = before.map_or(0, |before| self.ends[before]);
        Some(&self.texts[start..end])
    }

    /// Returns the facts in order.
    ///
    /// ```
    /// use cfgx::Facts;
    ///
    /// let facts = Facts::new(["unix", "test"]);
    /// assert_eq!(facts.iter().collect::<Vec<&str>>(), ["unix", "test"]);
    /// ```
    #[must_use]
    pub fn iter(&self) -> FactIter<'_> {
        FactIter {
            facts: self,
            left: 0..self.len(),
        }
    }

    /// Returns the number of facts.
    ///
    /// ```
    /// assert_eq!(cfgx::Facts::default().len(), 0);
    /// ```
    #[must_use]
    pub fn len(&self) -> usize {
        self.ends.len()
    }

    /// Returns whether there is no fact.
    ///
    /// ```
    /// assert!(cfgx::Facts::default().is_empty());
    /// ```
    #[must_use]
    pub fn is_empty(&self) -> bool {
        self.ends.is_empty()
    }

    /// Reads the facts of the target with this number. Returns the error of the first faulty one.
    fn read(&self, target: usize) -> Result<resolve::Facts, FactError> {
        let facts: Vec<&str> = self.iter().collect();
        resolve::Facts::from_rustc(Global, &facts).map_err(|error| match error {
            FactsError::Faulty { index, error } => {
                FactError::new(target, index, facts[index], &error)
            }
            FactsError::Memory(_) => memory::end(self.texts.len()),
        })
    }
}

/// The facts of a target in order, which [`Facts::iter`] returns.
///
/// ```
/// use cfgx::Facts;
///
/// let facts = Facts::new(["unix", "test"]);
/// assert_eq!((facts.iter().len(), facts.iter().next_back()), (2, Some("test")));
/// ```
#[derive(Clone, Debug)]
pub struct FactIter<'a> {
    facts: &'a Facts,
    left: Range<usize>,
}

impl<'a> Iterator for FactIter<'a> {
    type Item = &'a str;

    fn next(&mut self) -> Option<&'a str> {
        self.facts.get(self.left.next()?)
    }

    fn size_hint(&self) -> (usize, Option<usize>) {
        self.left.size_hint()
    }
}

impl<'a> DoubleEndedIterator for FactIter<'a> {
    fn next_back(&mut self) -> Option<&'a str> {
        self.facts.get(self.left.next_back()?)
    }
}

impl ExactSizeIterator for FactIter<'_> {}

impl FusedIterator for FactIter<'_> {}

/// Does what [`Facts::iter`] does.
///
/// ```
/// let facts = cfgx::Facts::new(["unix", "test"]);
/// for fact in &facts {
///     assert_eq!(fact.len(), 4);
/// }
/// ```
impl<'a> IntoIterator for &'a Facts {
    type Item = &'a str;
    type IntoIter = FactIter<'a>;

    fn into_iter(self) -> FactIter<'a> {
        self.iter()
    }
}

impl<T: AsRef<str>> Extend<T> for Facts {
    fn extend<I: IntoIterator<Item = T>>(&mut self, facts: I) {
        for fact in facts {
            self.push(fact.as_ref());
        }
    }
}

impl<T: AsRef<str>> FromIterator<T> for Facts {
    fn from_iter<I: IntoIterator<Item = T>>(facts: I) -> Self {
        let mut all = Facts::default();
        all.extend(facts);
        all
    }
}

impl fmt::Debug for Facts {
    fn fmt(&self, f: &mut fmt::Formatter<'_>) -> fmt::Result {
        f.debug_list().entries(self.iter()).finish()
    }
}

/// The answer to a predicate that does not test the target and that no fact names. A predicate that
/// tests the target is false if no fact names it.
///
/// ```
/// use cfgx::{Expression, Facts, Otherwise, audit_with};
///
/// let conditions = [Expression::parse("feature = \"x\"").unwrap()];
/// let targets = [Facts::new(["unix"])];
/// let value = |otherwise| audit_with(&conditions, &targets, otherwise).unwrap().row(0)[0];
/// assert_eq!(value(Otherwise::Unknown), None);
/// assert_eq!(value(Otherwise::False), Some(false));
/// ```
#[derive(Clone, Copy, Debug, Default, PartialEq, Eq, Hash)]
#[non_exhaustive]
pub enum Otherwise {
    /// It is false.
    False,
    /// It is unknown.
    #[default]
    Unknown,
}

impl Otherwise {
    /// Returns what the engine calls it.
    fn of_the_engine(self) -> resolve::Otherwise {
        match self {
            Otherwise::False => resolve::Otherwise::False,
            Otherwise::Unknown => resolve::Otherwise::Unknown,
        }
    }
}

/// The values of conditions on targets. `None` is unknown.
///
/// ```
/// use cfgx::{Expression, Facts, audit};
///
/// let conditions = [Expression::parse("unix").unwrap(), Expression::parse("test").unwrap()];
/// let targets = [Facts::new(["unix"]), Facts::new(["windows"])];
/// let values = audit(&conditions, &targets).unwrap();
/// assert_eq!((values.condition_count(), values.target_count()), (2, 2));
/// assert_eq!(values.value(0, 1), Some(false));
/// assert_eq!(values.row(1), [None, None]);
/// ```
#[derive(Clone, Debug, PartialEq, Eq, Hash)]
pub struct Audit {
    values: Vec<Option<bool>>,
    condition_count: usize,
    target_count: usize,
}

impl Audit {
    /// Returns the number of conditions.
    ///
    /// ```
    /// use cfgx::{Expression, Facts, audit};
    ///
    /// let conditions = ["unix", "windows"].map(|text| Expression::parse(text).unwrap());
    /// assert_eq!(audit(conditions, [Facts::new(["unix"])]).unwrap().condition_count(), 2);
    /// ```
    #[must_use]
    pub fn condition_count(&self) -> usize {
        self.condition_count
    }

    /// Returns the number of targets.
    ///
    /// ```
    /// use cfgx::{Expression, Facts, audit};
    ///
    /// let conditions = ["unix", "windows"].map(|text| Expression::parse(text).unwrap());
    /// assert_eq!(audit(conditions, [Facts::new(["unix"])]).unwrap().target_count(), 1);
    /// ```
    #[must_use]
    pub fn target_count(&self) -> usize {
        self.target_count
    }

    /// Returns the values of the condition with this number, one for each target.
    ///
    /// # Panics
    ///
    /// If there is no such condition.
    ///
    /// ```
    /// use cfgx::{Expression, Facts, audit};
    ///
    /// let targets = [Facts::new(["unix"])];
    /// let values = audit(&[Expression::parse("unix").unwrap()], &targets).unwrap();
    /// assert_eq!(values.row(0), [Some(true)]);
    /// ```
    #[must_use]
    pub fn row(&self, condition: usize) -> &[Option<bool>] {
        assert!(
            condition < self.condition_count,
            "no condition has the number {condition}"
        );
        // The product is at most the number of values, so it does not overflow.
        let start = condition * self.target_count;
        &self.values[start..start + self.target_count]
    }

    /// Returns the value of the condition with the first number on the target with the second.
    ///
    /// # Panics
    ///
    /// If there is no such condition or no such target.
    ///
    /// ```
    /// use cfgx::{Expression, Facts, audit};
    ///
    /// let targets = [Facts::new(["unix"])];
    /// let values = audit(&[Expression::parse("windows").unwrap()], &targets).unwrap();
    /// assert_eq!(values.value(0, 0), Some(false));
    /// ```
    #[must_use]
    pub fn value(&self, condition: usize, target: usize) -> Option<bool> {
        let row = self.row(condition);
        *row.get(target)
            .unwrap_or_else(|| panic!("no target has the number {target}"))
    }

    /// Returns the value of the condition with the first number on the target with the second. If
    /// there is no such condition or no such target, returns `None`. A value that is unknown is
    /// `Some(None)`.
    ///
    /// ```
    /// use cfgx::{Expression, Facts, audit};
    ///
    /// let conditions = ["unix", "test"].map(|text| Expression::parse(text).unwrap());
    /// let values = audit(&conditions, [Facts::new(["unix"])]).unwrap();
    /// assert_eq!(values.get(0, 0), Some(Some(true)));
    /// assert_eq!(values.get(1, 0), Some(None));
    /// assert_eq!((values.get(2, 0), values.get(0, 1)), (None, None));
    /// ```
    #[must_use]
    pub fn get(&self, condition: usize, target: usize) -> Option<Option<bool>> {
        let is_there = condition < self.condition_count && target < self.target_count;
        is_there.then(|| self.value(condition, target))
    }
}

/// A fact that is no condition. A fact that no condition can ask is not faulty, such as
/// `target_thread_local`.
///
/// ```
/// use cfgx::error::Reason;
/// use cfgx::{Expression, Facts, audit};
///
/// let condition = Expression::parse("unix").unwrap();
/// let targets = [Facts::new(["unix"]), Facts::new(["windows", "?all("])];
/// let error = audit([condition], &targets).unwrap_err();
/// assert_eq!((error.target, error.number), (1, 1));
/// assert_eq!((error.reason, error.span.clone()), (Reason::UnclosedParens, 4..5));
/// assert_eq!(
///     error.to_string(),
///     "fact 1 of target 1 is faulty in bytes 4..5: unclosed parens: ?all("
/// );
/// ```
#[derive(Clone, Debug, PartialEq, Eq)]
#[non_exhaustive]
pub struct FactError {
    /// The number of the target, from 0 on.
    pub target: usize,
    /// The number of the fact among those of the target, from 0 on.
    pub number: usize,
    /// The fact.
    pub fact: String,
    /// What is wrong with it.
    pub reason: Reason,
    /// The bytes of `fact` that are at fault.
    pub span: Range<usize>,
}

impl fmt::Display for FactError {
    fn fmt(&self, f: &mut fmt::Formatter<'_>) -> fmt::Result {
        write!(
            f,
            "fact {} of target {} is faulty in bytes {:?}: {}: {}",
            self.number, self.target, self.span, self.reason, self.fact
        )
    }
}

impl Error for FactError {}

impl FactError {
    /// Returns the error of a fact. The span of `error` is one of the fact without the `?` that it
    /// may begin with, and without an outer `cfg( )`.
    fn new(target: usize, number: usize, fact: &str, error: &error::ParseError) -> Self {
        let text = fact.strip_prefix('?').unwrap_or(fact);
        let offset = fact.len() - text.len() + strip(text).offset;
        FactError {
            target,
            number,
            fact: fact.to_string(),
            reason: error.reason,
            span: offset + error.span.start..offset + error.span.end,
        }
    }
}

/// Returns the value of each condition on each target. A predicate that no fact names is false if
/// it tests the target, and unknown otherwise.
///
/// No condition is parsed again: each predicate is looked up once for 64 targets, and each
/// condition is evaluated once for them. The memory is in proportion to the texts of the facts and
/// to the number of values. What the iterators yield is kept until the end.
///
/// # Errors
///
/// The first faulty fact.
///
/// ```
/// use cfgx::{Expression, Facts, audit};
///
/// let conditions = [Expression::parse("any(windows, feature = \"x\")").unwrap()];
/// let targets = [Facts::new(["unix"]), Facts::new(["windows"])];
/// let values = audit(&conditions, &targets)?;
/// assert_eq!(values.row(0), [None, Some(true)]);
/// # Ok::<(), cfgx::FactError>(())
/// ```
pub fn audit<C, T>(conditions: C, targets: T) -> Result<Audit, FactError>
where
    C: IntoIterator,
    C::Item: Borrow<Expression>,
    T: IntoIterator,
    T::Item: Borrow<Facts>,
{
    audit_with(conditions, targets, Otherwise::Unknown)
}

/// Returns the value of each condition on each target, as [`audit`] does. `otherwise` is the answer
/// to a predicate that does not test the target and that no fact names.
///
/// # Errors
///
/// The first faulty fact.
///
/// ```
/// use cfgx::{Expression, Facts, Otherwise, audit_with};
///
/// let conditions = [Expression::parse("not(test)").unwrap()];
/// let values = audit_with(&conditions, [Facts::new(["unix"])], Otherwise::False)?;
/// assert_eq!(values.row(0), [Some(true)]);
/// # Ok::<(), cfgx::FactError>(())
/// ```
pub fn audit_with<C, T>(conditions: C, targets: T, otherwise: Otherwise) -> Result<Audit, FactError>
where
    C: IntoIterator,
    C::Item: Borrow<Expression>,
    T: IntoIterator,
    T::Item: Borrow<Facts>,
{
    let conditions: Vec<C::Item> = conditions.into_iter().collect();
    let targets: Vec<T::Item> = targets.into_iter().collect();
    let read = targets.iter().enumerate();
    let read = read.map(|(number, facts)| facts.borrow().read(number));
    let facts: Vec<resolve::Facts> = read.collect::<Result<_, _>>()?;
    let borrowed = conditions.iter().map(|one| one.borrow().condition());
    let borrowed: Vec<Condition<'_>> = borrowed.collect();
    let values = audit_conditions(Global, &borrowed, &facts, otherwise.of_the_engine());
    let count = conditions.len().saturating_mul(targets.len());
    Ok(Audit {
        values: memory::granted(values, count).into_std(),
        condition_count: conditions.len(),
        target_count: targets.len(),
    })
}
