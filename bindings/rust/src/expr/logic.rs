//! The values that answers can have, and how `all`, `any` and `not` combine them.

/// Values with the operations of truth values.
///
/// [`Expression::eval`](crate::Expression::eval) joins values in a stated order, so the operations
/// need not be commutative.
///
/// ```
/// use cfgx::Expression;
/// use cfgx::expr::Logic;
///
/// /// A number of doors, of which the most are counted.
/// struct Most(u32);
///
/// impl Logic for Most {
///     fn top() -> Self {
///         Most(0)
///     }
///     fn bottom() -> Self {
///         Most(0)
///     }
///     fn and(self, other: Self) -> Self {
///         Most(self.0 + other.0)
///     }
///     fn or(self, other: Self) -> Self {
///         Most(self.0.max(other.0))
///     }
///     fn not(self) -> Self {
///         self
///     }
/// }
///
/// let expression = Expression::parse("any(all(a, b), not(c))").unwrap();
/// assert_eq!(expression.eval(|_| Most(1)).0, 2);
///
/// // A value that may be unknown is known if it is the same whatever the unknown ones are.
/// assert!(bool::top().and(bool::bottom().not()));
/// assert_eq!(Logic::and(Some(false), None), Some(false));
/// assert_eq!(Logic::and(Some(true), None), None);
/// ```
pub use crate::engine::cfgx_syntax::logic::Logic;
